// races: none
// Two teams that two lanes fork store to elements of their own.
#include <omp.h>
#include <stdio.h>

static long x[4];

int main(void)
{
    omp_set_max_active_levels(2);
#pragma omp parallel num_threads(2)
    {
        int up = omp_get_thread_num();
#pragma omp parallel num_threads(2)
        x[2 * up + omp_get_thread_num()] = 1;
    }
    printf("%ld\n", x[3]);
    return 0;
}
