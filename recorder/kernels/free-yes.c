// races: 15-19
// recorder: none, a miss: a free isn't logged
// A lane frees a block to which another one may still store.
#include <omp.h>
#include <stdio.h>
#include <stdlib.h>

static long *block;

int main(void)
{
    block = malloc(800);
#pragma omp parallel num_threads(2)
    if (omp_get_thread_num() == 0)
        block[5] = 1;
    else {
        for (volatile int k = 0; k < 1000000; k++) {
        }
        free(block);
    }
    puts("done");
    return 0;
}
