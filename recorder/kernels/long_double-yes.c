// races: 11-11
// recorder: refused, doesn't instrument
// All lanes add to one sum of ten bytes.
#include <stdio.h>

static long double s;

int main(void)
{
#pragma omp parallel num_threads(4)
    s = s + 1;
    printf("%Lg\n", s);
    return 0;
}
