// races: none
// A reduction by max.
#include <stdio.h>

static long u[64];

int main(void)
{
    long most = 0;
    for (int i = 0; i < 64; i++)
        u[i] = i * 37 % 64;
#pragma omp parallel for num_threads(4) reduction(max : most)
    for (int i = 0; i < 64; i++)
        most = u[i] > most ? u[i] : most;
    printf("%ld\n", most);
    return 0;
}
