// races: none
// The signal comes before the lanes begin, and another one when they have ended.
#include <omp.h>
#include <signal.h>
#include <stdio.h>

static volatile int last;
static int a[2];
static void store(int number)
{
    last = number;
}

int main(void)
{
    if (signal(SIGUSR1, store) != SIG_DFL)
        return 1;
    raise(SIGUSR1);
#pragma omp parallel num_threads(2)
    a[omp_get_thread_num()] = last;
    raise(SIGUSR1);
    if (signal(SIGUSR1, SIG_DFL) != store)
        return 1;
    printf("%d %d\n", a[0], a[1]);
    return 0;
}
