// races: none
// The neighbour's value goes into another array.
#include <stdio.h>

static long a[64], b[64];

int main(void)
{
#pragma omp parallel for num_threads(4)
    for (int i = 0; i < 63; i++)
        b[i] = a[i + 1] + i;
    printf("%ld\n", b[15]);
    return 0;
}
