// races: 14-16
// One barrier a round keeps a round's reads from its writes, but not from those of the next round.
#include <omp.h>
#include <stdio.h>

static long x[4], y[4];

int main(void)
{
#pragma omp parallel num_threads(4)
    {
        int me = omp_get_thread_num();
        for (int k = 0; k < 5; k++) {
            x[me] = k;
#pragma omp barrier
            y[me] += x[(me + 1) % 4];
        }
    }
    printf("%d\n", y[0] > 0);
    return 0;
}
