// races: 13-13
// at -O1: some
// A stencil in place: at the edge of its share a lane reads what its neighbour writes.
#include <stdio.h>

static double u[64];

int main(void)
{
    u[0] = 1000;
#pragma omp parallel for num_threads(4)
    for (int i = 1; i < 63; i++)
        u[i] = (u[i - 1] + 2 * u[i] + u[i + 1]) / 4;
    printf("%g\n", u[60]);
    return 0;
}
