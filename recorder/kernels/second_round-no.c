// races: none
// Two barriers a round.
#include <omp.h>
#include <stdio.h>

static long x[4], y[4];

int main(void)
{
#pragma omp parallel num_threads(4)
    {
        int me = omp_get_thread_num();
        for (int k = 0; k < 5; k++) {
            x[me] = k;
#pragma omp barrier
            y[me] += x[(me + 1) % 4];
#pragma omp barrier
        }
    }
    printf("%ld\n", y[0]);
    return 0;
}
