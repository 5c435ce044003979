// races: 13-14
// Nobody waits for the lane that sets the value.
#include <omp.h>
#include <stdio.h>

static long start, out[4];

int main(void)
{
#pragma omp parallel num_threads(4)
    {
#pragma omp single nowait
        start = 10;
        out[omp_get_thread_num()] = start;
    }
    printf("%ld\n", out[0]);
    return 0;
}
