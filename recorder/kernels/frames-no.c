// races: none
// Calls use the same place of a lane's stack, one after another.
#include <omp.h>
#include <stdio.h>

static long out[4];

__attribute__((noinline)) static void fill(long *to, int count, long value)
{
    for (int i = 0; i < count; i++)
        to[i] = value;
}

__attribute__((noinline)) static long one(long value)
{
    long own[8];
    fill(own, 8, value);
    return own[7];
}

__attribute__((noinline)) static long two(long value)
{
    long own[12];
    fill(own, 12, value);
    return own[11] + one(value);
}

int main(void)
{
#pragma omp parallel num_threads(4)
    for (int k = 0; k < 10; k++)
        out[omp_get_thread_num()] += one(k) + two(k);
    printf("%ld\n", out[2]);
    return 0;
}
