// races: 11-14
// Whoever comes first sets up a value under a mutex, but whether that is done is also asked without it.
#include <omp.h>
#include <stdio.h>

static long ready;

int main(void)
{
#pragma omp parallel num_threads(4)
    if (!ready) {
#pragma omp critical
        if (!ready)
            ready = 1;
    }
    printf("%ld\n", ready);
    return 0;
}
