// races: 15-15
// A lane's own variable is shared by the team that it forks.
#include <omp.h>
#include <stdio.h>

static long out[2];

int main(void)
{
    omp_set_max_active_levels(2);
#pragma omp parallel num_threads(2)
    {
        long own = 0;
#pragma omp parallel num_threads(2)
        own = own + 1;
        out[omp_get_thread_num()] = own;
    }
    printf("%d\n", out[0] > 0);
    return 0;
}
