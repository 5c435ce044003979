// The product of two matrices of 512 by 512 on four lanes.
#include <stdio.h>

enum { SIDE = 512 };

static double left[SIDE][SIDE], right[SIDE][SIDE], product[SIDE][SIDE];

int main(void)
{
    for (int i = 0; i < SIDE; i++)
        for (int j = 0; j < SIDE; j++) {
            left[i][j] = i + j;
            right[i][j] = i - j;
        }
#pragma omp parallel for num_threads(4) schedule(static)
    for (int i = 0; i < SIDE; i++)
        for (int k = 0; k < SIDE; k++)
            for (int j = 0; j < SIDE; j++)
                product[i][j] += left[i][k] * right[k][j];
    printf("%g\n", product[3][4]);
    return 0;
}
