// races: none
// One lane makes a block and gives all lanes the pointer, and each stores to its own element.
#include <omp.h>
#include <stdio.h>
#include <stdlib.h>

static long *kept;

int main(void)
{
#pragma omp parallel num_threads(4)
    {
        long *p;
#pragma omp single copyprivate(p)
        p = kept = calloc(4, sizeof *p);
        p[omp_get_thread_num()] = omp_get_thread_num();
    }
    printf("%ld\n", kept[3]);
    free(kept);
    return 0;
}
