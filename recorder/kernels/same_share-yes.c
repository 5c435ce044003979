// races: 13-16
// Two loops deal the same iterations to different lanes, and nobody waits between them.
#include <stdio.h>

static long a[64], b[64];

int main(void)
{
#pragma omp parallel num_threads(4)
    {
#pragma omp for schedule(static) nowait
        for (int i = 0; i < 64; i++)
            a[i] = i;
#pragma omp for schedule(static, 1)
        for (int i = 0; i < 64; i++)
            b[i] = a[i];
    }
    printf("%ld\n", b[7]);
    return 0;
}
