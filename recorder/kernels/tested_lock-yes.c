// races: 22-24
// at -O1: some
// Lane 1 goes on although it didn't get the lock, which lane 0 holds over two barriers.
#include <omp.h>
#include <stdio.h>

static omp_lock_t l;
static long s;

int main(void)
{
    omp_init_lock(&l);
#pragma omp parallel num_threads(2)
    {
        int me = omp_get_thread_num(), got = 1;
        if (me == 0)
            omp_set_lock(&l);
#pragma omp barrier
        if (me == 1)
            got = omp_test_lock(&l);
        if (me == 0)
            s = s + 1;
        else
            s = s + 2 + got;
#pragma omp barrier
        if (got)
            omp_unset_lock(&l);
    }
    printf("%ld\n", s);
    return 0;
}
