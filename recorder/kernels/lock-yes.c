// races: 17-17
// Lanes of even and of odd number take different locks.
#include <omp.h>
#include <stdio.h>

static omp_lock_t l[2];
static long s;

int main(void)
{
    omp_init_lock(&l[0]);
    omp_init_lock(&l[1]);
#pragma omp parallel num_threads(4)
    {
        int k = omp_get_thread_num() % 2;
        omp_set_lock(&l[k]);
        s = s + 1;
        omp_unset_lock(&l[k]);
    }
    omp_destroy_lock(&l[0]);
    omp_destroy_lock(&l[1]);
    printf("%ld\n", s);
    return 0;
}
