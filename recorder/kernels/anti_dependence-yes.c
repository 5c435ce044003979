// races: 11-11
// Each element takes its right neighbour's value, which the next lane overwrites at the edge of its share.
#include <stdio.h>

static long a[64];

int main(void)
{
#pragma omp parallel for num_threads(4)
    for (int i = 0; i < 63; i++)
        a[i] = a[i + 1] + i;
    printf("%ld\n", a[15]);
    return 0;
}
