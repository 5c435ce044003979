// races: none
// Each lane has an inner index of its own.
#include <stdio.h>

static long m[16][32];

int main(void)
{
    int j;
#pragma omp parallel for num_threads(4) private(j)
    for (int i = 0; i < 16; i++)
        for (j = 0; j < 8; j++)
            m[i][j] = i;
    printf("%ld\n", m[3][3]);
    return 0;
}
