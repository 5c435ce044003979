// races: none
// What is updated in one step and what is changed under the mutex are two variables.
#include <stdio.h>

static long v, w;

int main(void)
{
#pragma omp parallel num_threads(4)
    {
#pragma omp atomic
        v += 2;
#pragma omp critical
        w += 3;
    }
    printf("%ld %ld\n", v, w);
    return 0;
}
