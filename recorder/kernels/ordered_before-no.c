// races: none
// recorder: 12-15, a false alarm: an ordered part is a mutex, and orders nothing
// What a lane does before its ordered part comes before what a later iteration does after its own.
#include <stdio.h>

static long x[17], y[17];

int main(void)
{
#pragma omp parallel for num_threads(4) ordered schedule(static, 1)
    for (int i = 1; i < 17; i++) {
        x[i] = i;
#pragma omp ordered
        y[0] += i;
        y[i] = x[i - 1];
    }
    printf("%ld\n", y[16]);
    return 0;
}
