// races: 13-15
// One lane stores to what all of them raise in one step.
#include <omp.h>
#include <stdio.h>

static long v;

int main(void)
{
#pragma omp parallel num_threads(4)
    {
        if (omp_get_thread_num() == 0)
            v = 10;
#pragma omp atomic
        v += 1;
    }
    printf("%d\n", v > 0);
    return 0;
}
