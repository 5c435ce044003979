// races: none
// All lanes raise, exchange and store a variable of C's own atomic type.
#include <stdatomic.h>
#include <stdio.h>

static atomic_long v;

int main(void)
{
#pragma omp parallel num_threads(4)
    {
        atomic_fetch_add(&v, 1);
        atomic_exchange(&v, 7);
        atomic_store(&v, 3);
    }
    printf("%ld\n", (long)v);
    return 0;
}
