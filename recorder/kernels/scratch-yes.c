// races: 12-12 12-13
// at -O1: some
// A variable for a step between is shared by all lanes.
#include <stdio.h>

long a[64], t;

int main(void)
{
#pragma omp parallel for num_threads(4)
    for (int i = 0; i < 64; i++) {
        t = a[i] + i;
        a[i] = t * t;
    }
    printf("%ld\n", a[9]);
    return 0;
}
