// A million stores in a worksharing loop. With RACE each element is moved one place on, so that lanes meet at the edges of their shares.
#include <stdint.h>

#define COUNT 1000000

// Volatile, so that the optimizer keeps each access, as the kernel has it.
static volatile int64_t a[COUNT + 1];

int main(void)
{
#pragma omp parallel for num_threads(4) schedule(static)
    for (int i = 0; i < COUNT; i++)
#ifdef RACE
        a[i + 1] = a[i];
#else
        a[i] = i;
#endif
    return 0;
}
