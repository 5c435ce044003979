// races: 9-9
// A generator of random numbers whose seed all lanes share.
#include <stdio.h>

static unsigned seed = 1, out[64];

__attribute__((noinline)) static unsigned next(void)
{
    return seed = seed * 1664525 + 1013904223;
}

int main(void)
{
#pragma omp parallel for num_threads(4)
    for (int i = 0; i < 64; i++)
        out[i] = next();
    printf("%d\n", out[0] != 0);
    return 0;
}
