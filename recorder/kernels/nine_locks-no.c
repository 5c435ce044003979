// races: none
// recorder: refused, more than 8 mutexes
// Nine locks are held at once.
#include <omp.h>
#include <stdio.h>

static omp_lock_t l[9];
static long s;

int main(void)
{
    for (int k = 0; k < 9; k++)
        omp_init_lock(&l[k]);
#pragma omp parallel num_threads(2)
    {
        for (int k = 0; k < 9; k++)
            omp_set_lock(&l[k]);
        s = s + 1;
        for (int k = 9; k > 0; k--)
            omp_unset_lock(&l[k - 1]);
    }
    printf("%ld\n", s);
    return 0;
}
