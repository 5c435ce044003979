// races: none
// in several folders
// too large for the plain checker
// 160,000 barrier intervals, more than a folder may have; each lane reads only what was stored before a barrier.
#include <omp.h>
#include <stdio.h>

enum { ROUNDS = 40000 };
static int a[2], seen[2];

int main(void)
{
#pragma omp parallel num_threads(2)
    for (int round = 0, me = omp_get_thread_num(); round < ROUNDS; round++) {
        a[me] = round;
#pragma omp barrier
        seen[me] = a[1 - me];
#pragma omp barrier
    }
    printf("%d\n", seen[0] + seen[1] > 0);
    return 0;
}
