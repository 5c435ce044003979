// races: none
// A barrier follows what the master does.
#include <omp.h>
#include <stdio.h>

static long start, out[4];

int main(void)
{
#pragma omp parallel num_threads(4)
    {
#pragma omp master
        start = 10;
#pragma omp barrier
        out[omp_get_thread_num()] = start;
    }
    printf("%ld\n", out[0]);
    return 0;
}
