// races: none
// Each section changes a variable of its own.
#include <stdio.h>

static long s, t;

__attribute__((noinline)) static void up(void)
{
    s = s + 2;
}

__attribute__((noinline)) static void down(void)
{
    t = t - 1;
}

int main(void)
{
#pragma omp parallel sections num_threads(2)
    {
#pragma omp section
        up();
#pragma omp section
        down();
    }
    printf("%ld\n", s + t);
    return 0;
}
