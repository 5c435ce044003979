// races: none
// Each lane's generator has a seed of its own, which begins as the master's.
#include <stdio.h>

static unsigned seed = 1, out[64];
#pragma omp threadprivate(seed)

__attribute__((noinline)) static unsigned next(void)
{
    return seed = seed * 1664525 + 1013904223;
}

int main(void)
{
#pragma omp parallel num_threads(4) copyin(seed)
    {
#pragma omp for
        for (int i = 0; i < 64; i++)
            out[i] = next();
    }
    printf("%u\n", out[0]);
    return 0;
}
