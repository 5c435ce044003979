// races: 12-14
// An atomic update and a critical section don't exclude each other.
#include <stdio.h>

static long v;

int main(void)
{
#pragma omp parallel num_threads(4)
    {
#pragma omp atomic
        v += 2;
#pragma omp critical
        v += 3;
    }
    printf("%ld\n", v);
    return 0;
}
