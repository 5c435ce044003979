// races: 16-16 19-19
// with SWORDREC_ROLL=60000
// in several folders
// Regions of the root, one after another, and in one folder's first and in the last one's two lanes store to one element.
#include <stdio.h>

enum { ROUNDS = 12, COUNT = 1000 };
static int a[COUNT + 1];

int main(void)
{
    for (int round = 0; round < ROUNDS; round++) {
#pragma omp parallel for num_threads(2)
        for (int i = 0; i < COUNT; i++) {
            if (round == 0)
                a[COUNT] = i;
            a[i] += round;
            if (round == ROUNDS - 1)
                a[COUNT] = i;
        }
    }
    printf("%d\n", a[5]);
    return 0;
}
