// Twenty steps of a heat stencil on four lanes. With RACE nobody waits between a step's two loops.
#include <stdint.h>

#define COUNT 20000

// Volatile, so that the optimizer keeps each access, as the kernel has it.
static volatile int64_t u[COUNT], v[COUNT];

int main(void)
{
#pragma omp parallel num_threads(4)
    for (int t = 0; t < 20; t++) {
#ifdef RACE
#pragma omp for schedule(static) nowait
#else
#pragma omp for schedule(static)
#endif
        for (int i = 1; i < COUNT - 1; i++)
            v[i] = (u[i - 1] + 2 * u[i] + u[i + 1]) / 4;
#pragma omp for schedule(static)
        for (int i = 1; i < COUNT - 1; i++)
            u[i] = v[i];
    }
    return 0;
}
