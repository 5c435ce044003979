// races: 13-13
// Prefix sums in place: one lane adds what another has added to already.
#include <stdio.h>

static long a[16];

int main(void)
{
#pragma omp parallel num_threads(4)
    for (int step = 1; step < 16; step *= 2) {
#pragma omp for
        for (int i = step; i < 16; i++)
            a[i] += a[i - step];
    }
    printf("%ld\n", a[15]);
    return 0;
}
