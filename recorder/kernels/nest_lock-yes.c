// races: 19-19
// After as many releases as there were takings the lock is free.
#include <omp.h>
#include <stdio.h>

static omp_nest_lock_t l;
static long s, t;

int main(void)
{
    omp_init_nest_lock(&l);
#pragma omp parallel num_threads(4)
    {
        omp_set_nest_lock(&l);
        omp_set_nest_lock(&l);
        s = s + 1;
        omp_unset_nest_lock(&l);
        omp_unset_nest_lock(&l);
        t = t + 1;
    }
    omp_destroy_nest_lock(&l);
    printf("%ld %ld\n", s, t);
    return 0;
}
