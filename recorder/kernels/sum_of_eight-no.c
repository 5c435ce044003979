// races: none
// Eight lanes add in pairs at the end of a loop, and then each reads the sum.
#include <omp.h>
#include <stdio.h>

static long own[8];

int main(void)
{
    long s = 0;
#pragma omp parallel num_threads(8)
    {
#pragma omp for reduction(+ : s)
        for (int i = 0; i < 64; i++)
            s = s + i;
        own[omp_get_thread_num()] = s;
    }
    printf("%ld\n", own[3]);
    return 0;
}
