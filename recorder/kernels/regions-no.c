// races: none
// Each loop has a region of its own, and the second begins when the first has ended.
#include <omp.h>
#include <stdio.h>

static long x[4], y[4];

int main(void)
{
#pragma omp parallel num_threads(4)
    x[omp_get_thread_num()] = 1;
#pragma omp parallel num_threads(4)
    y[omp_get_thread_num()] = x[3 - omp_get_thread_num()];
    printf("%ld\n", y[0]);
    return 0;
}
