// races: none
// One mutex is held at every access of each variable.
#include <stdio.h>

static long s, t;

int main(void)
{
#pragma omp parallel num_threads(4)
    {
#pragma omp critical(outer)
        {
            t = t + 1;
#pragma omp critical(inner)
            s = s + t;
        }
#pragma omp critical(inner)
        s = s + 1;
    }
    printf("%d %ld\n", s > 0, t);
    return 0;
}
