// races: none
// Two indexes come from a table, and no two of them meet.
#include <stdio.h>

static const int place[8] = {0, 1, 2, 3, 4, 5, 6, 7};
static long x[40];

int main(void)
{
#pragma omp parallel for num_threads(2)
    for (int i = 0; i < 8; i++) {
        int q = place[i];
        x[q] += 1;
        x[q + 12] += 3;
    }
    printf("%ld\n", x[3]);
    return 0;
}
