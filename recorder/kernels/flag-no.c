// races: none
// recorder: 13-22, a false alarm: atomic operations order nothing
// One lane waits for another by an atomic flag.
#include <omp.h>
#include <stdio.h>

static long data, flag, seen;

int main(void)
{
#pragma omp parallel num_threads(2)
    if (omp_get_thread_num() == 0) {
        data = 42;
#pragma omp atomic write seq_cst
        flag = 1;
    } else {
        long up = 0;
        while (!up) {
#pragma omp atomic read seq_cst
            up = flag;
        }
        seen = data;
    }
    printf("%ld\n", seen);
    return 0;
}
