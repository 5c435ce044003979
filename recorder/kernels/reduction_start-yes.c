// races: 13-14
// One lane sets the sum to zero while others may have added to it already.
#include <omp.h>
#include <stdio.h>

static long s;

int main(void)
{
#pragma omp parallel num_threads(4)
    {
        if (omp_get_thread_num() == 0)
            s = 0;
#pragma omp for reduction(+ : s)
        for (int i = 0; i < 64; i++)
            s += i;
    }
    printf("%ld\n", s);
    return 0;
}
