// races: 21-23
// A lane of an inner team gives the others a pointer to a variable of its own, and goes on using it.
#include <omp.h>
#include <stdio.h>

static long *leaked[2], sum[2];

int main(void)
{
    omp_set_max_active_levels(2);
#pragma omp parallel num_threads(2)
    {
        int up = omp_get_thread_num();
#pragma omp parallel num_threads(2)
        {
            long own = 5;
            if (omp_get_thread_num() == 1)
                leaked[up] = &own;
#pragma omp barrier
            if (omp_get_thread_num() == 0)
                *leaked[up] = 6;
            else
                sum[up] += own;
#pragma omp barrier
        }
    }
    printf("%d\n", sum[0] > 0);
    return 0;
}
