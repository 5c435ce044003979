// races: 16-20
// The barrier of an inner team orders nothing with the other lane of the outer team.
#include <omp.h>
#include <stdio.h>

long x, y;

int main(void)
{
    omp_set_max_active_levels(2);
#pragma omp parallel num_threads(2)
    if (omp_get_thread_num() == 0) {
#pragma omp parallel num_threads(2)
        {
            if (omp_get_thread_num() == 0)
                x = 1;
#pragma omp barrier
        }
    } else
        y = x;
    printf("%ld\n", y);
    return 0;
}
