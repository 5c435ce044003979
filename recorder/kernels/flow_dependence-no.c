// races: none
// Each element comes from its index alone.
#include <stdio.h>

static long a[64];

int main(void)
{
#pragma omp parallel for num_threads(4)
    for (int i = 1; i < 64; i++)
        a[i] = a[0] + 3 * i;
    printf("%ld\n", a[63]);
    return 0;
}
