// races: 13-16
// The lanes read the sum while others still add to it.
#include <omp.h>
#include <stdio.h>

static long out[4];

int main(void)
{
    long s = 0;
#pragma omp parallel num_threads(4)
    {
#pragma omp for reduction(+ : s) nowait
        for (int i = 0; i < 64; i++)
            s = s + i;
        out[omp_get_thread_num()] = s;
    }
    printf("%ld\n", out[3]);
    return 0;
}
