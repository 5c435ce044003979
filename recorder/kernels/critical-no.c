// races: none
// Each lane raises one counter, under the unnamed mutex.
#include <stdio.h>

static long s;

int main(void)
{
#pragma omp parallel num_threads(4)
#pragma omp critical
    s = s + 1;
    printf("%ld\n", s);
    return 0;
}
