// races: 14-17
// Lane 0 adds up the lanes' sums before they are whole.
#include <omp.h>
#include <stdio.h>

static long part[4], s;

int main(void)
{
#pragma omp parallel num_threads(4)
    {
        int me = omp_get_thread_num();
        for (int i = me; i < 16; i += 4)
            part[me] += i;
        if (me == 0)
            for (int k = 0; k < 4; k++)
                s += part[k];
    }
    printf("%ld\n", s);
    return 0;
}
