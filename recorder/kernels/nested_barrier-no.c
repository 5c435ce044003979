// races: none
// The outer team's barrier orders what an inner team did with the other lane of the outer team.
#include <omp.h>
#include <stdio.h>

static long x, y;

int main(void)
{
    omp_set_max_active_levels(2);
#pragma omp parallel num_threads(2)
    {
        if (omp_get_thread_num() == 0) {
#pragma omp parallel num_threads(2)
            if (omp_get_thread_num() == 1)
                x = 1;
        }
#pragma omp barrier
        if (omp_get_thread_num() == 1)
            y = x;
    }
    printf("%ld\n", y);
    return 0;
}
