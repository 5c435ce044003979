// races: none
// Each bucket has a lock.
#include <omp.h>
#include <stdio.h>

static omp_lock_t l[4];
static int h[4];

int main(void)
{
    for (int k = 0; k < 4; k++)
        omp_init_lock(&l[k]);
#pragma omp parallel for num_threads(4)
    for (int i = 0; i < 32; i++) {
        omp_set_lock(&l[i % 4]);
        h[i % 4]++;
        omp_unset_lock(&l[i % 4]);
    }
    printf("%d\n", h[1]);
    return 0;
}
