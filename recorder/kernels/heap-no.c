// races: none
// Each lane fills a block of its own.
#include <omp.h>
#include <stdio.h>
#include <stdlib.h>

static long out[4];

int main(void)
{
#pragma omp parallel num_threads(4)
    {
        long *block = calloc(16, sizeof *block);
        for (int k = 0; k < 16; k++)
            block[k] += omp_get_thread_num();
        out[omp_get_thread_num()] = block[5];
        free(block);
    }
    printf("%ld\n", out[3]);
    return 0;
}
