// races: 13-13
// Two teams that two lanes fork store to the same elements.
#include <omp.h>
#include <stdio.h>

static long x[2];

int main(void)
{
    omp_set_max_active_levels(2);
#pragma omp parallel num_threads(2)
#pragma omp parallel num_threads(2)
    x[omp_get_thread_num()] = 1;
    printf("%ld\n", x[1]);
    return 0;
}
