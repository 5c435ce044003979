// races: 11-11
// With chunks of one iteration each lane's neighbour is another lane.
#include <stdio.h>

static long a[65];

int main(void)
{
#pragma omp parallel for num_threads(2) schedule(static, 1)
    for (int i = 0; i < 64; i++)
        a[i] = a[i + 1 - i % 2];
    printf("%ld\n", a[15]);
    return 0;
}
