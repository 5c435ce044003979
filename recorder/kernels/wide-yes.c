// races: 11-11
// recorder: refused, more than 64 lanes
// A team of 65 lanes.
#include <stdio.h>

static long s;

int main(void)
{
#pragma omp parallel num_threads(65)
    s = s + 1;
    printf("%d\n", s > 0);
    return 0;
}
