// races: none
// Locks are released in the order in which they were taken, each after the next one was taken.
#include <omp.h>
#include <stdio.h>

static omp_lock_t l[9];
static int p[9];

int main(void)
{
    for (int k = 0; k < 9; k++)
        omp_init_lock(&l[k]);
#pragma omp parallel num_threads(4)
    {
        omp_set_lock(&l[0]);
        for (int k = 0; k < 8; k++) {
            p[k]++;
            omp_set_lock(&l[k + 1]);
            p[k]++;
            omp_unset_lock(&l[k]);
        }
        p[8]++;
        omp_unset_lock(&l[8]);
    }
    printf("%d\n", p[3]);
    return 0;
}
