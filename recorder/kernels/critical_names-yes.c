// races: 12-14
// Critical sections of different names don't exclude each other.
#include <stdio.h>

static long s;

int main(void)
{
#pragma omp parallel num_threads(4)
    {
#pragma omp critical(up)
        s = s + 2;
#pragma omp critical(down)
        s = s - 1;
    }
    printf("%ld\n", s);
    return 0;
}
