// races: 13-16
// Nobody waits between the loop that writes and the one that reads in reverse.
#include <stdio.h>

static long a[64], b[64];

int main(void)
{
#pragma omp parallel num_threads(4)
    {
#pragma omp for schedule(static) nowait
        for (int i = 0; i < 64; i++)
            a[i] = i;
#pragma omp for schedule(static)
        for (int i = 0; i < 64; i++)
            b[i] = a[63 - i];
    }
    printf("%ld\n", b[7]);
    return 0;
}
