// races: none
// Each lane begins with a copy of the start, and moves that.
#include <omp.h>
#include <stdio.h>

static long out[4];

int main(void)
{
    long start = 100;
#pragma omp parallel num_threads(4) firstprivate(start)
    {
        start += omp_get_thread_num();
#pragma omp barrier
        out[omp_get_thread_num()] = start;
    }
    printf("%ld\n", out[2]);
    return 0;
}
