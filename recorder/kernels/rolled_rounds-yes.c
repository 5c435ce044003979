// races: 18-18
// with SWORDREC_ROLL=60000
// in several folders
// Rounds in one region, with a barrier at the end of each; in the last one lanes read what others store.
#include <stdio.h>

enum { ROUNDS = 20, COUNT = 1000 };
static int a[COUNT], b[COUNT];

int main(void)
{
#pragma omp parallel num_threads(2)
    for (int round = 0; round < ROUNDS; round++) {
        const int *from = round == ROUNDS - 1 || round % 2 ? a : b;
        int *to = round % 2 ? b : a;
        if (round == ROUNDS - 1) to = a;
#pragma omp for
        for (int i = 0; i < COUNT - 1; i++) to[i] = from[i + 1] + round;
    }
    printf("%d\n", a[5]);
    return 0;
}
