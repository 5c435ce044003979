// races: none
// Lane 0 holds a lock over a barrier, and lane 1 takes it after that.
#include <omp.h>
#include <stdio.h>

static omp_lock_t l;
static long s;

int main(void)
{
    omp_init_lock(&l);
#pragma omp parallel num_threads(2)
    {
        int me = omp_get_thread_num();
        if (me == 0)
            omp_set_lock(&l);
#pragma omp barrier
        if (me == 1)
            omp_set_lock(&l);
        s = s + 1;
        omp_unset_lock(&l);
    }
    printf("%ld\n", s);
    return 0;
}
