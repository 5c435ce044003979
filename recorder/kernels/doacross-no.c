// races: none
// recorder: 13-13, a false alarm: iterations that wait for each other aren't ordered
// Each iteration waits for the one before it.
#include <stdio.h>

static long x[33];

int main(void)
{
#pragma omp parallel for num_threads(4) ordered(1) schedule(static, 1)
    for (int i = 1; i < 33; i++) {
#pragma omp ordered depend(sink : i - 1)
        x[i] = x[i - 1] + 1;
#pragma omp ordered depend(source)
    }
    printf("%ld\n", x[32]);
    return 0;
}
