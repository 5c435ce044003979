// races: none
// with SWORDREC_ROLL=60000
// in several folders
// Regions of the root, one after another, in which each lane takes in turn the elements that the other one had.
#include <stdio.h>

enum { ROUNDS = 12, COUNT = 1000 };
static int a[COUNT];

int main(void)
{
    for (int round = 0; round < ROUNDS; round++) {
#pragma omp parallel for num_threads(2)
        for (int i = 0; i < COUNT; i++)
            a[round % 2 ? i : COUNT - 1 - i] += round;
    }
    printf("%d\n", a[5]);
    return 0;
}
