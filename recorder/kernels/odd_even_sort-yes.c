// races: 14-16 15-15 15-16
// at -O1: some
// Neighbours are swapped all at once, so two lanes swap one element.
#include <stdio.h>

static int a[33];

int main(void)
{
    for (int i = 0; i < 33; i++)
        a[i] = 33 - i;
#pragma omp parallel for num_threads(4) schedule(static, 1)
    for (int i = 0; i < 32; i++) {
        int left = a[i];
        a[i] = a[i + 1];
        a[i + 1] = left;
    }
    printf("%d\n", a[0] > 0);
    return 0;
}
