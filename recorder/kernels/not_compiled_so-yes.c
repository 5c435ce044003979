// races: 10-10
// recorder: none, a miss: the function isn't compiled with the recorder's calls
// All lanes call a function that raises one counter.
#include <stdio.h>

static long s;

__attribute__((noinline, disable_sanitizer_instrumentation)) static void raise_it(void)
{
    s = s + 1;
}

int main(void)
{
#pragma omp parallel num_threads(4)
    raise_it();
    printf("%ld\n", s);
    return 0;
}
