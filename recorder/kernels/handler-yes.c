// races: 11-25
// recorder: refused, a signal's handler ran in a lane
// A signal comes while a lane runs, and its handler stores to what another lane stores to.
#include <omp.h>
#include <signal.h>
#include <stdio.h>

static volatile int last;
static void store(int number)
{
    last = number;
}

int main(void)
{
    struct sigaction action = {.sa_handler = store}, before;
    sigaction(SIGUSR1, &action, NULL);
    sigaction(SIGUSR1, NULL, &before);
    if (before.sa_handler != store)
        return 1;
#pragma omp parallel num_threads(2)
    if (omp_get_thread_num() == 0)
        raise(SIGUSR1);
    else
        last = 0;
    printf("%d\n", last);
    return 0;
}
