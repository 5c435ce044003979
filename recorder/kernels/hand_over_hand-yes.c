// races: 18-18
// The last place is changed after the lock of another was released.
#include <omp.h>
#include <stdio.h>

static omp_lock_t l[9];
static int p[9];

int main(void)
{
    for (int k = 0; k < 9; k++)
        omp_init_lock(&l[k]);
#pragma omp parallel num_threads(4)
    for (int k = 0; k < 8; k++) {
        omp_set_lock(&l[k]);
        p[k]++;
        omp_unset_lock(&l[k]);
        p[8]++;
    }
    printf("%d\n", p[3]);
    return 0;
}
