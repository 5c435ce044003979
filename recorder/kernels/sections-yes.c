// races: 9-14
// Two sections change one variable.
#include <stdio.h>

static long s;

__attribute__((noinline)) static void up(void)
{
    s = s + 2;
}

__attribute__((noinline)) static void down(void)
{
    s = s - 1;
}

int main(void)
{
#pragma omp parallel sections num_threads(2)
    {
#pragma omp section
        up();
#pragma omp section
        down();
    }
    printf("%ld\n", s);
    return 0;
}
