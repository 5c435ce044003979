// races: 13-13
// Two lanes may count the same value at once.
#include <stdio.h>

static int u[64], h[8];

int main(void)
{
    for (int i = 0; i < 64; i++)
        u[i] = i * i % 8;
#pragma omp parallel for num_threads(4)
    for (int i = 0; i < 64; i++)
        h[u[i]]++;
    printf("%d\n", h[1]);
    return 0;
}
