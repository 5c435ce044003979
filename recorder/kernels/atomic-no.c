// races: none
// All lanes raise two variables, each time in one step.
#include <stdio.h>

static long v;
static double d;

int main(void)
{
#pragma omp parallel num_threads(4)
    for (int k = 0; k < 20; k++) {
#pragma omp atomic
        v += 1;
#pragma omp atomic
        d += 0.5;
    }
    printf("%ld %g\n", v, d);
    return 0;
}
