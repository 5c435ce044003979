// races: none
// With chunks of two iterations each lane keeps its pairs of neighbours.
#include <stdio.h>

static long a[65];

int main(void)
{
#pragma omp parallel for num_threads(2) schedule(static, 2)
    for (int i = 0; i < 64; i++)
        a[i] = a[i + 1 - i % 2];
    printf("%ld\n", a[15]);
    return 0;
}
