// races: 16-16
// One lane makes a block and gives all lanes the pointer, and all store to its first element.
#include <omp.h>
#include <stdio.h>
#include <stdlib.h>

static long *kept;

int main(void)
{
#pragma omp parallel num_threads(4)
    {
        long *p;
#pragma omp single copyprivate(p)
        p = kept = calloc(4, sizeof *p);
        p[0] = omp_get_thread_num();
    }
    printf("%d\n", kept[0] >= 0);
    free(kept);
    return 0;
}
