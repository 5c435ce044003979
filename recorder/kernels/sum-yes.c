// races: 12-12
// at -O1: some
// All lanes add to one sum.
#include <stdio.h>

static double u[64], s;

int main(void)
{
#pragma omp parallel for num_threads(4)
    for (int i = 0; i < 64; i++)
        s = s + u[i] * u[i];
    printf("%g\n", s);
    return 0;
}
