// Four lanes count 50,000 times under one mutex. With RACE they count without it.
#include <stdint.h>

// Volatile, so that the optimizer keeps each access, as the kernel has it.
static volatile int64_t s;

int main(void)
{
#pragma omp parallel num_threads(4)
    for (int k = 0; k < 12500; k++) {
#ifndef RACE
#pragma omp critical
#endif
        s = s + 1;
    }
    return 0;
}
