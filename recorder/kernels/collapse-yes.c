// races: 12-12
// Two loops are shared out as one, so lanes meet within a row that is summed in place.
#include <stdio.h>

static long m[5][8];

int main(void)
{
#pragma omp parallel for num_threads(4) collapse(2)
    for (int i = 0; i < 5; i++)
        for (int j = 1; j < 8; j++)
            m[i][j] += m[i][j - 1];
    printf("%ld\n", m[4][7]);
    return 0;
}
