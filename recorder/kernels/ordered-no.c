// races: none
// All accesses are in the ordered part.
#include <stdio.h>

static long x, y;

int main(void)
{
#pragma omp parallel for num_threads(4) ordered schedule(static, 1)
    for (int i = 0; i < 16; i++) {
#pragma omp ordered
        {
            y = y + i;
            x = 2 * x + i;
        }
    }
    printf("%ld\n", x);
    return 0;
}
