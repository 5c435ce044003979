// races: none
// Each row begins with its own first element.
#include <stdio.h>

static int m[16][16];

int main(void)
{
#pragma omp parallel for num_threads(4)
    for (int i = 1; i < 16; i++) {
        int *row = &m[0][0] + 16 * i;
        for (int j = 1; j < 16; j++)
            row[j] = row[j - 1] + 1;
    }
    printf("%d\n", m[5][5]);
    return 0;
}
