// races: 19-19
// recorder: refused, more than 65,536 barrier intervals
// A nested team passes more barriers than a folder may have intervals, and at last its lanes store to one element.
#include <omp.h>
#include <stdio.h>

enum { ROUNDS = 33000 };
static int a[2], last;

int main(void)
{
    omp_set_max_active_levels(2);
#pragma omp parallel num_threads(2)
    if (omp_get_thread_num() == 0) {
#pragma omp parallel num_threads(2)
        for (int round = 0, me = omp_get_thread_num(); round < ROUNDS; round++) {
            a[me] = round;
            if (round == ROUNDS - 1)
                last = me;
#pragma omp barrier
        }
    }
    printf("%d\n", a[0] + last);
    return 0;
}
