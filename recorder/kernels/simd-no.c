// races: none
// Each lane's share is computed in vectors.
#include <stdio.h>

static int a[64], b[64];

int main(void)
{
#pragma omp parallel for simd num_threads(4) schedule(static)
    for (int i = 0; i < 64; i++)
        a[i] = a[i] + b[i];
    printf("%d\n", a[63]);
    return 0;
}
