// races: 15-15
// Sixteen lanes on four levels raise one counter.
#include <omp.h>
#include <stdio.h>

static long s;

int main(void)
{
    omp_set_max_active_levels(4);
#pragma omp parallel num_threads(2)
#pragma omp parallel num_threads(2)
#pragma omp parallel num_threads(2)
#pragma omp parallel num_threads(2)
    s = s + 1;
    printf("%d\n", s > 0);
    return 0;
}
