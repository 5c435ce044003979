// races: 11-11
// Each lane's share is computed in vectors, and begins with what the lane before writes last.
#include <stdio.h>

static int a[65], b[64];

int main(void)
{
#pragma omp parallel for simd num_threads(4) schedule(static)
    for (int i = 0; i < 64; i++)
        a[i + 1] = a[i] + b[i];
    printf("%d\n", a[64]);
    return 0;
}
