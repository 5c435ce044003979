// races: 12-13
// One region has both loops, and nobody waits for the first.
#include <omp.h>
#include <stdio.h>

static long x[4], y[4];

int main(void)
{
#pragma omp parallel num_threads(4)
    {
        x[omp_get_thread_num()] = 1;
        y[omp_get_thread_num()] = x[3 - omp_get_thread_num()];
    }
    printf("%d\n", y[0] >= 0);
    return 0;
}
