// races: none
// Each lane has a sum of its own, and the runtime adds them.
#include <stdio.h>

static double u[64];

int main(void)
{
    double s = 0;
#pragma omp parallel for num_threads(4) reduction(+ : s)
    for (int i = 0; i < 64; i++)
        s = s + u[i] * u[i];
    printf("%g\n", s);
    return 0;
}
