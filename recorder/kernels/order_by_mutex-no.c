// races: none
// recorder: 15-18, a false alarm: a mutex excludes, and orders nothing
// Whoever comes first sets up a value under a mutex. All others take the mutex before they read it.
#include <omp.h>
#include <stdio.h>

static long ready, value, out[4];

int main(void)
{
#pragma omp parallel num_threads(4)
    {
#pragma omp critical
        if (!ready) {
            value = 7;
            ready = 1;
        }
        out[omp_get_thread_num()] = value;
    }
    printf("%ld\n", out[2]);
    return 0;
}
