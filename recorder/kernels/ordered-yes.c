// races: 11-11
// Of a loop with an ordered part, what stands before that part isn't ordered.
#include <stdio.h>

static long x, y;

int main(void)
{
#pragma omp parallel for num_threads(4) ordered schedule(static, 1)
    for (int i = 0; i < 16; i++) {
        y = y + i;
#pragma omp ordered
        x = 2 * x + i;
    }
    printf("%ld\n", x);
    return 0;
}
