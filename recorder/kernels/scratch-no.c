// races: none
// Each lane has a copy of the variable.
#include <stdio.h>

static long a[64];

int main(void)
{
    long t;
#pragma omp parallel for num_threads(4) private(t)
    for (int i = 0; i < 64; i++) {
        t = a[i] + i;
        a[i] = t * t;
    }
    printf("%ld\n", a[9]);
    return 0;
}
