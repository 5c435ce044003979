// races: 14-16
// recorder: refused, explicit tasks
// Two tasks of one lane store to one variable.
#include <stdio.h>

static long s;

int main(void)
{
#pragma omp parallel num_threads(2)
#pragma omp single
    {
#pragma omp task
        s = 1;
#pragma omp task
        s = 2;
    }
    printf("%d\n", s > 0);
    return 0;
}
