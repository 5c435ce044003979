// races: 18-18
// recorder: refused, or locks of mutexes, barriers and regions
// Each lane takes one of two locks of its own for each element, more often than a log has room; the last one is written by both.
#include <omp.h>
#include <stdio.h>

enum { COUNT = 1500000 };
static char a[2 * COUNT];

int main(void)
{
#pragma omp parallel num_threads(2)
    {
        omp_lock_t own[2];
        omp_init_lock(&own[0]), omp_init_lock(&own[1]);
        for (int i = 0, me = omp_get_thread_num(); i < COUNT; i++) {
            omp_set_lock(&own[i % 2]);
            a[i == COUNT - 1 ? 0 : me * COUNT + i] = i;
            omp_unset_lock(&own[i % 2]);
        }
        omp_destroy_lock(&own[0]), omp_destroy_lock(&own[1]);
    }
    printf("%d\n", a[5]);
    return 0;
}
