// races: 16-16
// Each lane takes a lock of its own, whichever bucket it counts in.
#include <omp.h>
#include <stdio.h>

static omp_lock_t l[4];
static int h[4];

int main(void)
{
    for (int k = 0; k < 4; k++)
        omp_init_lock(&l[k]);
#pragma omp parallel for num_threads(4)
    for (int i = 0; i < 32; i++) {
        omp_set_lock(&l[omp_get_thread_num()]);
        h[i % 4]++;
        omp_unset_lock(&l[omp_get_thread_num()]);
    }
    printf("%d\n", h[1]);
    return 0;
}
