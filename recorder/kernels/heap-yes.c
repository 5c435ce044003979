// races: 12-12
// All lanes fill one block.
#include <omp.h>
#include <stdio.h>
#include <stdlib.h>

int main(void)
{
    long *block = calloc(16, sizeof *block);
#pragma omp parallel num_threads(4)
    for (int k = 0; k < 16; k++)
        block[k] += omp_get_thread_num();
    printf("%d\n", block[3] >= 0);
    free(block);
    return 0;
}
