// races: 11-11
// recorder: refused, teams
// Three teams raise one counter.
#include <stdio.h>

static long s;

int main(void)
{
#pragma omp teams num_teams(3) thread_limit(1)
    s = s + 1;
    printf("%d\n", s > 0);
    return 0;
}
