// races: none
// A stencil with two arrays: a barrier keeps each loop's readers from the other's writers.
#include <stdio.h>

static double u[64], v[64];

int main(void)
{
    u[0] = 1000;
#pragma omp parallel num_threads(4)
    for (int t = 0; t < 3; t++) {
#pragma omp for
        for (int i = 1; i < 63; i++)
            v[i] = (u[i - 1] + 2 * u[i] + u[i + 1]) / 4;
#pragma omp for
        for (int i = 1; i < 63; i++)
            u[i] = v[i];
    }
    printf("%g\n", u[60]);
    return 0;
}
