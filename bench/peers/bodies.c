// Five steps of 2,000 bodies that attract each other, on four lanes that draw sixteen bodies at a time.
#include <math.h>
#include <stdio.h>

enum { BODIES = 2000, STEPS = 5 };

typedef struct {
    double x, y, u, v;
} Body;

static Body body[BODIES];

int main(void)
{
    for (int i = 0; i < BODIES; i++) {
        body[i].x = i * 7919 % 1009;
        body[i].y = i * 104729 % 997;
    }
#pragma omp parallel num_threads(4)
    for (int step = 0; step < STEPS; step++) {
#pragma omp for schedule(dynamic, 16)
        for (int i = 0; i < BODIES; i++) {
            double pull_x = 0, pull_y = 0;
            for (int j = 0; j < BODIES; j++) {
                double x = body[j].x - body[i].x, y = body[j].y - body[i].y;
                double square = x * x + y * y + 1, weight = 1 / (square * sqrt(square));
                pull_x += x * weight;
                pull_y += y * weight;
            }
            body[i].u += pull_x;
            body[i].v += pull_y;
        }
#pragma omp for schedule(static)
        for (int i = 0; i < BODIES; i++) {
            body[i].x += body[i].u;
            body[i].y += body[i].v;
        }
    }
    printf("%g %g\n", body[5].x, body[5].y);
    return 0;
}
