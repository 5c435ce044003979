// Fifty steps of conjugate gradients on four lanes: a matrix of 100,000 rows with five numbers each, and a region for each loop over them.
#include <stdio.h>

enum { ROWS = 100000, BAND = 5, STEPS = 50 };

static const int distance[BAND] = {-300, -1, 0, 1, 300};
static int column[ROWS][BAND];
static double entry[ROWS][BAND], x[ROWS], rest[ROWS], way[ROWS], image[ROWS];

static double product(const double *one, const double *other)
{
    double sum = 0;
#pragma omp parallel for num_threads(4) schedule(static) reduction(+ : sum)
    for (int i = 0; i < ROWS; i++)
        sum += one[i] * other[i];
    return sum;
}

static void multiply(void)
{
#pragma omp parallel for num_threads(4) schedule(static)
    for (int i = 0; i < ROWS; i++) {
        double sum = 0;
        for (int k = 0; k < BAND; k++)
            sum += entry[i][k] * way[column[i][k]];
        image[i] = sum;
    }
}

int main(void)
{
    for (int i = 0; i < ROWS; i++) {
        for (int k = 0; k < BAND; k++) {
            int at = i + distance[k];
            int is_inside = at >= 0 && at < ROWS;
            column[i][k] = is_inside ? at : i;
            entry[i][k] = at == i ? 4.5 : is_inside ? -1 : 0;
        }
        rest[i] = way[i] = 1;
    }
    double square = product(rest, rest);
    for (int step = 0; step < STEPS; step++) {
        multiply();
        double along = square / product(way, image);
#pragma omp parallel for num_threads(4) schedule(static)
        for (int i = 0; i < ROWS; i++) {
            x[i] += along * way[i];
            rest[i] -= along * image[i];
        }
        double left = product(rest, rest), turn = left / square;
        square = left;
#pragma omp parallel for num_threads(4) schedule(static)
        for (int i = 0; i < ROWS; i++)
            way[i] = rest[i] + turn * way[i];
    }
    printf("%g %g\n", square, x[7]);
    return 0;
}
