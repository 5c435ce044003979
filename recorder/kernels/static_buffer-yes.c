// races: 11-11 11-20
// A function answers in a buffer that is the same for all its callers.
#include <omp.h>
#include <stdio.h>

static char out[4];

__attribute__((noinline)) static const char *digit(int k)
{
    static char buffer[2];
    buffer[0] = '0' + k;
    return buffer;
}

int main(void)
{
#pragma omp parallel num_threads(4)
    {
        const char *text = digit(omp_get_thread_num());
        out[omp_get_thread_num()] = *text;
    }
    printf("%d\n", out[0] >= '0');
    return 0;
}
