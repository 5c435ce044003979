// races: 18-18
// recorder: refused, more than 65,536 tasks
// Each of two lanes forks a team of eight again and again, more often than a folder has rows for; in the first ones lanes store to one element.
#include <omp.h>
#include <stdio.h>

enum { TEAMS = 4100 };
static int a[2];

int main(void)
{
    omp_set_max_active_levels(2);
#pragma omp parallel num_threads(2)
    for (int i = 0; i < TEAMS; i++) {
        int up = omp_get_thread_num();
#pragma omp parallel num_threads(8)
        if (i == 0)
            a[up] = i;
    }
    printf("%d\n", a[1]);
    return 0;
}
