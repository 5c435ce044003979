// races: 12-21
// A lane reads the bytes of what others raise in one step.
#include <omp.h>
#include <stdatomic.h>
#include <stdio.h>

static atomic_long v;
static long seen;

__attribute__((noinline)) static long bytes_of(const void *at)
{
    return *(const long *)at;
}

int main(void)
{
#pragma omp parallel num_threads(4)
    if (omp_get_thread_num() == 0)
        seen = bytes_of(&v);
    else
        atomic_fetch_add(&v, 1);
    printf("%d\n", seen >= 0);
    return 0;
}
