// races: 14-14
// at -O1: some
// Each row begins with the last element of the row before, which another lane writes.
#include <stdio.h>

static int m[16][16];

int main(void)
{
#pragma omp parallel for num_threads(4)
    for (int i = 1; i < 16; i++) {
        int *row = &m[0][0] + 16 * i;
        for (int j = 0; j < 16; j++)
            row[j] = row[j - 1] + 1;
    }
    printf("%d\n", m[5][5]);
    return 0;
}
