// races: none
// A barrier keeps the zero before all that is added.
#include <omp.h>
#include <stdio.h>

static long s;

int main(void)
{
#pragma omp parallel num_threads(4)
    {
        if (omp_get_thread_num() == 0)
            s = 0;
#pragma omp barrier
#pragma omp for reduction(+ : s)
        for (int i = 0; i < 64; i++)
            s += i;
    }
    printf("%ld\n", s);
    return 0;
}
