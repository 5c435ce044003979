// races: 16-19
// The inner mutex alone is taken in one place, the outer one alone in the other.
#include <stdio.h>

static long s, t;

int main(void)
{
#pragma omp parallel num_threads(4)
    {
#pragma omp critical(outer)
        {
            t = t + 1;
#pragma omp critical(inner)
            t = t + 1;
            s = s + 1;
        }
#pragma omp critical(inner)
        s = s + 1;
    }
    printf("%ld %ld\n", s, t);
    return 0;
}
