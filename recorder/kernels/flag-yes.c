// races: 13-18 14-16
// One lane waits for another by a flag that is no atomic variable.
#include <omp.h>
#include <stdio.h>

static long data, seen;
static volatile int flag;

int main(void)
{
#pragma omp parallel num_threads(2)
    if (omp_get_thread_num() == 0) {
        data = 42;
        flag = 1;
    } else {
        while (!flag) {
        }
        seen = data;
    }
    printf("%ld\n", seen);
    return 0;
}
