// races: 13-13
// Each lane moves the start that all of them share.
#include <omp.h>
#include <stdio.h>

static long out[4];

int main(void)
{
    long start = 100;
#pragma omp parallel num_threads(4)
    {
        start += omp_get_thread_num();
#pragma omp barrier
        out[omp_get_thread_num()] = start;
    }
    printf("%ld\n", out[2]);
    return 0;
}
