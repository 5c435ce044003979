// races: none
// What is read and what is written are two halves of one array.
#include <stdio.h>

static long x[128];

__attribute__((noinline)) static void doubled(long *to, const long *from)
{
#pragma omp parallel for num_threads(4)
    for (int i = 0; i < 64; i++)
        to[i] = 2 * from[i];
}

int main(void)
{
    doubled(x, x + 64);
    printf("%ld\n", x[5]);
    return 0;
}
