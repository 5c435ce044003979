// races: none
// too large for the plain checker
// A lane stores to more elements than one log has room for, with a barrier now and then; the other lane stores to elements of the round before.
#include <omp.h>
#include <stdio.h>

enum { ROUNDS = 7, COUNT = 700000 };
static char a[ROUNDS * COUNT];

int main(void)
{
#pragma omp parallel num_threads(2)
    {
        int me = omp_get_thread_num();
        for (int round = 0; round < ROUNDS; round++) {
#pragma omp barrier
            if (me == 0)
                for (int i = 0; i < COUNT; i++)
                    a[round * COUNT + i] = round;
            else if (round == ROUNDS - 1)
                a[(round - 1) * COUNT + 5] = 9;
        }
    }
    printf("%d\n", a[5]);
    return 0;
}
