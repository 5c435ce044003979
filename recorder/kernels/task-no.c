// races: none
// recorder: refused, explicit tasks
// Two tasks of one lane store to one variable, the second after the first.
#include <stdio.h>

static long s;

int main(void)
{
#pragma omp parallel num_threads(2)
#pragma omp single
    {
#pragma omp task
        s = 1;
#pragma omp taskwait
#pragma omp task
        s = 2;
    }
    printf("%ld\n", s);
    return 0;
}
