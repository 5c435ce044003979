// races: none
// Odd and even neighbours are swapped in turn.
#include <stdio.h>

static int a[32];

int main(void)
{
    for (int i = 0; i < 32; i++)
        a[i] = 32 - i;
#pragma omp parallel num_threads(4)
    for (int t = 0; t < 32; t++) {
#pragma omp for
        for (int i = t % 2; i < 31; i += 2)
            if (a[i] > a[i + 1]) {
                int left = a[i];
                a[i] = a[i + 1];
                a[i + 1] = left;
            }
    }
    printf("%d\n", a[0]);
    return 0;
}
