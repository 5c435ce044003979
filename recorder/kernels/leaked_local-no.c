// races: none
// A lane gives the others a pointer to a variable of its own, and reads it after a barrier.
#include <omp.h>
#include <stdio.h>

static long *leaked, sum;

int main(void)
{
#pragma omp parallel num_threads(2)
    {
        long own = 5;
        if (omp_get_thread_num() == 1)
            leaked = &own;
#pragma omp barrier
        if (omp_get_thread_num() == 0)
            *leaked = 6;
#pragma omp barrier
        if (omp_get_thread_num() == 1)
            sum += own;
    }
    printf("%ld\n", sum);
    return 0;
}
