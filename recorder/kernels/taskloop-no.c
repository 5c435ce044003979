// races: none
// recorder: refused, explicit tasks
// A loop whose chunks are tasks.
#include <stdio.h>

static long a[32];

int main(void)
{
#pragma omp parallel num_threads(2)
#pragma omp single
#pragma omp taskloop
    for (int i = 0; i < 32; i++)
        a[i] = i;
    printf("%ld\n", a[31]);
    return 0;
}
