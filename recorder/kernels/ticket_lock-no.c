// races: none
// recorder: 17-17, a false alarm: a lock of the program's own is no mutex
// Each lane draws a ticket and waits until its number is served.
#include <stdatomic.h>
#include <stdio.h>

static atomic_long next, served;
static long s;

int main(void)
{
#pragma omp parallel num_threads(4)
    {
        long mine = atomic_fetch_add(&next, 1);
        while (atomic_load(&served) != mine) {
        }
        s = s + 1;
        atomic_fetch_add(&served, 1);
    }
    printf("%ld\n", s);
    return 0;
}
