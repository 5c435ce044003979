// races: none
// Two static loops of the same bounds give each lane the same iterations, so nobody has to wait between them.
#include <stdio.h>

static long a[64], b[64];

int main(void)
{
#pragma omp parallel num_threads(4)
    {
#pragma omp for schedule(static) nowait
        for (int i = 0; i < 64; i++)
            a[i] = i;
#pragma omp for schedule(static)
        for (int i = 0; i < 64; i++)
            b[i] = a[i];
    }
    printf("%ld\n", b[7]);
    return 0;
}
