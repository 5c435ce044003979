// races: 15-15
// Sixteen bytes are read and written at once, and the next lane's begin with the last four of them.
#include <omp.h>
#include <stdio.h>

typedef float Four __attribute__((vector_size(16), aligned(4)));

static float x[64];

int main(void)
{
#pragma omp parallel num_threads(4)
    {
        Four *mine = (Four *)(x + 3 * omp_get_thread_num());
        *mine = *mine + 1.0f;
    }
    printf("%g\n", x[1]);
    return 0;
}
