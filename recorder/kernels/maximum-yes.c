// races: 14-14
// at -O1: some
// All lanes compare with one maximum and store it.
#include <stdio.h>

static long u[64], most;

int main(void)
{
    for (int i = 0; i < 64; i++)
        u[i] = i * 37 % 64;
#pragma omp parallel for num_threads(4)
    for (int i = 0; i < 64; i++)
        most = u[i] > most ? u[i] : most;
    printf("%ld\n", most);
    return 0;
}
