// races: none
// Whoever comes first sets up a value, and all others ask under the mutex.
#include <omp.h>
#include <stdio.h>

static long ready;

int main(void)
{
#pragma omp parallel num_threads(4)
    {
#pragma omp critical
        if (!ready)
            ready = 1;
    }
    printf("%ld\n", ready);
    return 0;
}
