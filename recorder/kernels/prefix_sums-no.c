// races: none
// Prefix sums from one array into the other, and back.
#include <stdio.h>

static long a[16], b[16];

int main(void)
{
#pragma omp parallel num_threads(4)
    for (int step = 1; step < 16; step *= 2) {
#pragma omp for
        for (int i = 0; i < 16; i++)
            b[i] = i < step ? a[i] : a[i] + a[i - step];
#pragma omp for
        for (int i = 0; i < 16; i++)
            a[i] = b[i];
    }
    printf("%ld\n", a[15]);
    return 0;
}
