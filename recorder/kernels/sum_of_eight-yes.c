// races: 18-18
// Eight lanes add in pairs at the end of a loop. Afterwards two of them store to one variable.
#include <omp.h>
#include <stdio.h>

static long last, own[8];

int main(void)
{
    long s = 0;
#pragma omp parallel num_threads(8)
    {
        int me = omp_get_thread_num();
#pragma omp for reduction(+ : s)
        for (int i = 0; i < 64; i++)
            s = s + i;
        if (me % 7 == 0)
            last = me;
        own[me] = s;
    }
    printf("%ld %ld\n", last % 7, own[3]);
    return 0;
}
