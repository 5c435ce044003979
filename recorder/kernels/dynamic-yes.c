// races: 14-16
// The lanes draw chunks, and each reads all elements without waiting for the others' chunks.
#include <omp.h>
#include <stdio.h>

static long a[64], sum[4];

int main(void)
{
#pragma omp parallel num_threads(4)
    {
#pragma omp for schedule(dynamic, 4) nowait
        for (int i = 0; i < 64; i++)
            a[i] = i;
        for (int i = 0; i < 64; i++)
            sum[omp_get_thread_num()] += a[i];
    }
    printf("%ld\n", sum[0]);
    return 0;
}
