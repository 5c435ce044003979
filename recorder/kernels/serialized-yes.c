// races: 13-13
// Inner regions have one lane each where one level is allowed, but the outer lanes still race.
#include <omp.h>
#include <stdio.h>

static long x[2];

int main(void)
{
    omp_set_max_active_levels(1);
#pragma omp parallel num_threads(4)
#pragma omp parallel num_threads(2)
    x[omp_get_thread_num()] += 1;
    printf("%ld\n", x[1]);
    return 0;
}
