// races: 18-18
// Each lane holds eight locks, and no two lanes hold the same.
#include <omp.h>
#include <stdio.h>

static omp_lock_t l[2][8];
static long s;

int main(void)
{
    for (int k = 0; k < 16; k++)
        omp_init_lock(&l[k / 8][k % 8]);
#pragma omp parallel num_threads(2)
    {
        omp_lock_t *mine = l[omp_get_thread_num()];
        for (int k = 0; k < 8; k++)
            omp_set_lock(&mine[k]);
        s = s + 1;
        for (int k = 8; k > 0; k--)
            omp_unset_lock(&mine[k - 1]);
    }
    printf("%ld\n", s);
    return 0;
}
