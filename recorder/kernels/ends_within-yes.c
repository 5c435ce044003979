// races: 14-14
// recorder: refused, within a region
// The program ends while a region runs.
#include <omp.h>
#include <stdio.h>
#include <stdlib.h>

static long s;

int main(void)
{
#pragma omp parallel num_threads(4)
    {
        s = s + 1;
#pragma omp barrier
        if (omp_get_thread_num() == 0) {
            printf("%d\n", s > 0);
            exit(0);
        }
    }
    return 1;
}
