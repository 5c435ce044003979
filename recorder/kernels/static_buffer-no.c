// races: none
// A function answers in its caller's buffer.
#include <omp.h>
#include <stdio.h>

static char out[4];

__attribute__((noinline)) static const char *digit(int k, char *buffer)
{
    buffer[0] = '0' + k;
    return buffer;
}

int main(void)
{
#pragma omp parallel num_threads(4)
    {
        char buffer[2];
        const char *text = digit(omp_get_thread_num(), buffer);
        out[omp_get_thread_num()] = *text;
    }
    printf("%.4s\n", out);
    return 0;
}
