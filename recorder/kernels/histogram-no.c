// races: none
// Each lane counts in an array of its own, and the runtime adds them.
#include <stdio.h>

static int u[64];

int main(void)
{
    int h[8] = {0};
    for (int i = 0; i < 64; i++)
        u[i] = i * i % 8;
#pragma omp parallel for num_threads(4) reduction(+ : h[:8])
    for (int i = 0; i < 64; i++)
        h[u[i]]++;
    printf("%d\n", h[1]);
    return 0;
}
