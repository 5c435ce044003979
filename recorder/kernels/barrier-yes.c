// races: 13-14
// A lane reads its neighbour's element without waiting for it.
#include <omp.h>
#include <stdio.h>

static long x[4], y[4];

int main(void)
{
#pragma omp parallel num_threads(4)
    {
        int me = omp_get_thread_num();
        x[me] = me;
        y[me] = x[(me + 1) % 4];
    }
    printf("%ld\n", y[0] + y[1]);
    return 0;
}
