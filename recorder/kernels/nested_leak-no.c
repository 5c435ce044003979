// races: none
// Threads of the runtime's pool go from one inner team to another, and their stacks with them.
#include <omp.h>
#include <stdio.h>

static long out[4][10][2];

__attribute__((noinline)) static void fill(long *own, long value)
{
    for (int k = 0; k < 8; k++)
        own[k] = value + k;
}

int main(void)
{
    omp_set_max_active_levels(2);
#pragma omp parallel num_threads(4)
    {
        int up = omp_get_thread_num();
        for (int t = 0; t < 10; t++) {
#pragma omp parallel num_threads(2)
            {
                long own[8];
                fill(own, t);
                out[up][t][omp_get_thread_num()] = own[7];
            }
        }
    }
    printf("%ld\n", out[3][9][1]);
    return 0;
}
