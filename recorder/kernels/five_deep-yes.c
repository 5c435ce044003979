// races: 17-17
// recorder: refused, more than 4 deep
// Thirty-two lanes on five levels.
#include <omp.h>
#include <stdio.h>

static long s;

int main(void)
{
    omp_set_max_active_levels(5);
#pragma omp parallel num_threads(2)
#pragma omp parallel num_threads(2)
#pragma omp parallel num_threads(2)
#pragma omp parallel num_threads(2)
#pragma omp parallel num_threads(2)
    s = s + 1;
    printf("%d\n", s > 0);
    return 0;
}
