// races: none
// The condition doesn't hold, so the region has one lane.
#include <stdio.h>

static long s;

int main(int argc, char **argv)
{
    (void)argv;
#pragma omp parallel num_threads(4) if (argc > 100)
    s = s + 1;
    printf("%ld\n", s);
    return 0;
}
