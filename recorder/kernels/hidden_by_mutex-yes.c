// races: 12-20
// The order in which the lanes happen to take the mutex hides the race from a detector that takes it for happens-before.
#include <omp.h>
#include <stdio.h>

long x, y;

int main(void)
{
#pragma omp parallel num_threads(2)
    if (omp_get_thread_num() == 0) {
        x = 1;
#pragma omp critical
        y++;
    } else {
        for (volatile int k = 0; k < 1000000; k++) {
        }
#pragma omp critical
        y++;
        x = 2;
    }
    printf("%ld %ld\n", x, y);
    return 0;
}
