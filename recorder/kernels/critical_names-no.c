// races: none
// Critical sections of one name exclude each other, wherever they are.
#include <stdio.h>

static long s;

int main(void)
{
#pragma omp parallel num_threads(4)
    {
#pragma omp critical(both)
        s = s + 2;
#pragma omp critical(both)
        s = s - 1;
    }
    printf("%ld\n", s);
    return 0;
}
