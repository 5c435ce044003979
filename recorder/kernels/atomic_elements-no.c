// races: none
// A barrier lies between the lanes that clear elements and those that raise them in one step.
#include <omp.h>
#include <stdio.h>

static int h[4];

int main(void)
{
#pragma omp parallel num_threads(4)
    {
        h[omp_get_thread_num()] = 0;
#pragma omp barrier
        for (int i = 0; i < 8; i++) {
#pragma omp atomic
            h[i % 4] += 1;
        }
    }
    printf("%d\n", h[0]);
    return 0;
}
