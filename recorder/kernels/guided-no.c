// races: none
// Chunks that grow smaller go to whichever lane asks, and all meet before the next loop.
#include <stdio.h>

static short a[128], b[128];

int main(void)
{
#pragma omp parallel num_threads(4)
    {
#pragma omp for schedule(guided)
        for (int i = 0; i < 128; i++)
            a[i] = i;
        for (int i = 0; i < 128; i += 16) {
#pragma omp atomic
            b[i] += a[127 - i];
        }
    }
    printf("%d\n", b[0]);
    return 0;
}
