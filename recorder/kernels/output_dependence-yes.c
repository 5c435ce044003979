// races: 11-11
// Every lane stores its last square in one variable.
#include <stdio.h>

static long last;

int main(void)
{
#pragma omp parallel for num_threads(4) schedule(static, 1)
    for (int i = 0; i < 4; i++)
        last = i * i;
    printf("%ld\n", last);
    return 0;
}
