// races: 12-12
// at -O1: some
// Each element needs the one before it, which another lane writes at the edge of its share.
#include <stdio.h>

static long a[64];

int main(void)
{
#pragma omp parallel for num_threads(4)
    for (int i = 1; i < 64; i++)
        a[i] = a[i - 1] + 3;
    printf("%ld\n", a[63]);
    return 0;
}
