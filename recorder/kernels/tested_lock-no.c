// races: none
// Lane 1 goes on only once it got the lock.
#include <omp.h>
#include <stdio.h>

static omp_lock_t l;
static long s;

int main(void)
{
    omp_init_lock(&l);
#pragma omp parallel num_threads(2)
    {
        while (!omp_test_lock(&l)) {
        }
        s = s + 1;
        omp_unset_lock(&l);
    }
    printf("%ld\n", s);
    return 0;
}
