// races: none
// Two members of one word, each in bytes of its own.
#include <omp.h>
#include <stdio.h>

static struct {
    unsigned char low, high;
} f;

__attribute__((noinline)) static void set_low(int to)
{
    f.low = to;
}

__attribute__((noinline)) static void set_high(int to)
{
    f.high = to;
}

int main(void)
{
#pragma omp parallel num_threads(2)
    if (omp_get_thread_num() == 0)
        set_low(3);
    else
        set_high(5);
    printf("%d\n", f.low + f.high);
    return 0;
}
