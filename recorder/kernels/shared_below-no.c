// races: none
// A lane's own array is shared by the team that it forks, and each of these lanes has an element.
#include <omp.h>
#include <stdio.h>

static long out[2];

int main(void)
{
    omp_set_max_active_levels(2);
#pragma omp parallel num_threads(2)
    {
        long own[2] = {0, 0};
#pragma omp parallel num_threads(2)
        own[omp_get_thread_num()] += 1;
        out[omp_get_thread_num()] = own[0] + own[1];
    }
    printf("%ld\n", out[0]);
    return 0;
}
