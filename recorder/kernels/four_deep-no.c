// races: none
// Sixteen lanes on four levels raise one counter under a mutex.
#include <omp.h>
#include <stdio.h>

static long s;

int main(void)
{
    omp_set_max_active_levels(4);
#pragma omp parallel num_threads(2)
#pragma omp parallel num_threads(2)
#pragma omp parallel num_threads(2)
#pragma omp parallel num_threads(2)
#pragma omp critical
    s = s + 1;
    printf("%ld\n", s);
    return 0;
}
