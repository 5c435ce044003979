// races: none
// All lanes take one lock.
#include <omp.h>
#include <stdio.h>

static omp_lock_t l;
static long s;

int main(void)
{
    omp_init_lock(&l);
#pragma omp parallel num_threads(4)
    {
        omp_set_lock(&l);
        s = s + 1;
        omp_unset_lock(&l);
    }
    omp_destroy_lock(&l);
    printf("%ld\n", s);
    return 0;
}
