// races: none
// recorder: 19-19, a false alarm: a team doesn't hold what its parent holds
// A lane holds a lock while it forks a team, whose first lane alone stores.
#include <omp.h>
#include <stdio.h>

static omp_lock_t l;
static long s;

int main(void)
{
    omp_init_lock(&l);
    omp_set_max_active_levels(2);
#pragma omp parallel num_threads(2)
    {
        omp_set_lock(&l);
#pragma omp parallel num_threads(2)
        if (omp_get_thread_num() == 0)
            s = s + 1;
        omp_unset_lock(&l);
    }
    printf("%ld\n", s);
    return 0;
}
