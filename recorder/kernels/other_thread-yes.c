// races: 12-25
// recorder: refused, a thread that isn't OpenMP's
// A thread that a lane starts by itself stores to what another lane reads.
#include <omp.h>
#include <pthread.h>
#include <stdio.h>

static long s, seen;

static void *store(void *none)
{
    s = 1;
    return none;
}

int main(void)
{
#pragma omp parallel num_threads(2)
    {
        if (omp_get_thread_num() == 0) {
            pthread_t thread;
            pthread_create(&thread, 0, store, 0);
            pthread_join(thread, 0);
        } else
            seen = s;
    }
    printf("%d\n", seen >= 0);
    return 0;
}
