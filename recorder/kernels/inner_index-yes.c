// races: 13-13 13-14
// at -O1: some
// The inner loop's index is declared outside, so all lanes share it.
#include <stdio.h>

static long m[16][32];

int main(void)
{
    int j;
#pragma omp parallel for num_threads(4) shared(j)
    for (int i = 0; i < 16; i++)
        for (j = 0; j < 8; j++)
            m[i][j] = i;
    printf("%ld\n", m[3][3]);
    return 0;
}
