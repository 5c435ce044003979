// races: none
// recorder: 16-19, a false alarm: an atomic read is logged as an update
// One lane reads a variable in one step, another one plainly, and nobody writes it.
#include <omp.h>
#include <stdio.h>

static long v = 3, out[2];

int main(void)
{
    v = 4;
#pragma omp parallel num_threads(2)
    if (omp_get_thread_num() == 0) {
        long seen;
#pragma omp atomic read
        seen = v;
        out[0] = seen;
    } else
        out[1] = v;
    printf("%ld\n", out[0] + out[1]);
    return 0;
}
