// races: none
// recorder: 16-16, a false alarm: a lock of the program's own is no mutex
// A lock is made of an atomic variable.
#include <stdatomic.h>
#include <stdio.h>

static atomic_flag taken = ATOMIC_FLAG_INIT;
static long s;

int main(void)
{
#pragma omp parallel num_threads(4)
    {
        while (atomic_flag_test_and_set(&taken)) {
        }
        s = s + 1;
        atomic_flag_clear(&taken);
    }
    printf("%ld\n", s);
    return 0;
}
