// races: 13-14
// Each lane draws a ticket in one step, and reads its number in another.
#include <omp.h>
#include <stdio.h>

static long next, mine[4];

int main(void)
{
#pragma omp parallel num_threads(4)
    {
#pragma omp atomic
        next += 1;
        mine[omp_get_thread_num()] = next;
    }
    printf("%d\n", mine[0] > 0);
    return 0;
}
