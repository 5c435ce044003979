// races: 10-10
// Each lane raises one counter.
#include <stdio.h>

static long s;

int main(void)
{
#pragma omp parallel num_threads(4)
    s = s + 1;
    printf("%ld\n", s);
    return 0;
}
