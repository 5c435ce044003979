// races: 12-15
// A lane clears elements that others raise in one step.
#include <omp.h>
#include <stdio.h>

static int h[4];

int main(void)
{
#pragma omp parallel num_threads(4)
    {
        h[omp_get_thread_num()] = 0;
        for (int i = 0; i < 8; i++) {
#pragma omp atomic
            h[i % 4] += 1;
        }
    }
    printf("%d\n", h[0] > 0);
    return 0;
}
