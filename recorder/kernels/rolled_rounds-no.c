// races: none
// with SWORDREC_ROLL=60000
// in several folders
// Rounds in one region, with a barrier at the end of each, from one array to the other and back.
#include <stdio.h>

enum { ROUNDS = 20, COUNT = 1000 };
static int a[COUNT], b[COUNT];

int main(void)
{
#pragma omp parallel num_threads(2)
    for (int round = 0; round < ROUNDS; round++) {
        const int *from = round % 2 ? a : b;
        int *to = round % 2 ? b : a;
#pragma omp for
        for (int i = 0; i < COUNT - 1; i++) to[i] = from[i + 1] + round;
    }
    printf("%d\n", a[5]);
    return 0;
}
