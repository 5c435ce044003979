// races: none
// Inner regions have one lane each where one level is allowed, with loops and barriers of their own.
#include <omp.h>
#include <stdio.h>

static long x[4];

int main(void)
{
    omp_set_max_active_levels(1);
#pragma omp parallel num_threads(4)
    {
        int up = omp_get_thread_num();
#pragma omp parallel num_threads(2)
        {
#pragma omp for
            for (int i = 0; i < 8; i++)
                x[up] += i;
#pragma omp barrier
            x[up]++;
        }
        x[up]++;
    }
    printf("%ld\n", x[2]);
    return 0;
}
