// races: none
// Two loops are shared out as one, and each iteration has an element of its own.
#include <stdio.h>

static long m[5][8];

int main(void)
{
#pragma omp parallel for num_threads(4) collapse(2)
    for (int i = 0; i < 5; i++)
        for (int j = 1; j < 8; j++)
            m[i][j] += i * j;
    printf("%ld\n", m[4][7]);
    return 0;
}
