// races: none
// All accesses are made under the mutex.
#include <omp.h>
#include <stdio.h>

static long x, y;

int main(void)
{
#pragma omp parallel num_threads(2)
    if (omp_get_thread_num() == 0) {
#pragma omp critical
        {
            x = 1;
            y++;
        }
    } else {
        for (volatile int k = 0; k < 1000000; k++) {
        }
#pragma omp critical
        {
            y++;
            x = 2;
        }
    }
    printf("%d %ld\n", x > 0, y);
    return 0;
}
