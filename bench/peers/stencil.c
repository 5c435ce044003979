// Heat on a plate of 1,000 by 1,000 points, twenty steps on four lanes, with the greatest change of each.
#include <math.h>
#include <stdio.h>

enum { SIDE = 1000, STEPS = 20 };

static double now[SIDE][SIDE], next[SIDE][SIDE];

int main(void)
{
    double change = 0;
    for (int i = 0; i < SIDE; i++)
        now[i][0] = now[0][i] = 100;
#pragma omp parallel num_threads(4)
    for (int step = 0; step < STEPS; step++) {
#pragma omp for schedule(static)
        for (int i = 1; i < SIDE - 1; i++)
            for (int j = 1; j < SIDE - 1; j++)
                next[i][j] = 0.2 * (now[i][j] + now[i - 1][j] + now[i + 1][j] + now[i][j - 1] + now[i][j + 1]);
#pragma omp for schedule(static) reduction(max : change)
        for (int i = 1; i < SIDE - 1; i++)
            for (int j = 1; j < SIDE - 1; j++) {
                change = fmax(change, fabs(next[i][j] - now[i][j]));
                now[i][j] = next[i][j];
            }
    }
    printf("%g %g\n", change, now[3][4]);
    return 0;
}
