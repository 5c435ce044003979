// races: 15-15
// The lanes share out the products of each element instead of the rows.
#include <stdio.h>

enum { N = 8 };

static double a[N][N], b[N][N], c[N][N];

int main(void)
{
#pragma omp parallel for num_threads(4)
    for (int k = 0; k < N; k++)
        for (int i = 0; i < N; i++)
            for (int j = 0; j < N; j++)
                c[i][j] += a[i][k] * b[k][j];
    printf("%g\n", c[3][4]);
    return 0;
}
