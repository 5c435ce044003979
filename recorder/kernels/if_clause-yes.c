// races: 11-11
// The condition holds, so the region has four lanes.
#include <stdio.h>

static long s;

int main(int argc, char **argv)
{
    (void)argv;
#pragma omp parallel num_threads(4) if (argc > 0)
    s = s + 1;
    printf("%ld\n", s);
    return 0;
}
