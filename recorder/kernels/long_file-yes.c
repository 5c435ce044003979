// races: 1000002-1000002
// recorder: refused, code whose line isn't known
// Its lines have numbers from a million on, as in a file that is put together from others.
#include <stdio.h>

static int a[4];

int main(void)
{
#line 1000000
#pragma omp parallel for num_threads(2)
    for (int i = 0; i < 4; i++)
        a[i / 4] = i;
    printf("%d\n", a[0]);
    return 0;
}
