// races: 15-18
// in several folders
// too large for the plain checker
// 80,000 barrier intervals, more than a folder may have, and in the last ones a lane reads what the other one stores.
#include <omp.h>
#include <stdio.h>

enum { ROUNDS = 40000 };
static int a[2], seen[2];

int main(void)
{
#pragma omp parallel num_threads(2)
    for (int round = 0, me = omp_get_thread_num(); round < ROUNDS; round++) {
        a[me] = round;
#pragma omp barrier
        if (round == ROUNDS - 2) {
            seen[me] = a[1 - me]; // nobody waits for it
        }
    }
    printf("%d\n", seen[0] + seen[1] > 0);
    return 0;
}
