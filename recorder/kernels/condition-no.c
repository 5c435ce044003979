// races: none
// recorder: 16-26, a false alarm: a condition of the C library orders nothing
// A lane waits for a condition that another one signals after it has set a value.
#include <omp.h>
#include <pthread.h>
#include <stdio.h>

static pthread_mutex_t m = PTHREAD_MUTEX_INITIALIZER;
static pthread_cond_t set = PTHREAD_COND_INITIALIZER;
static long value, ready, seen;

int main(void)
{
#pragma omp parallel num_threads(2)
    if (omp_get_thread_num() == 0) {
        value = 7;
        pthread_mutex_lock(&m);
        ready = 1;
        pthread_cond_signal(&set);
        pthread_mutex_unlock(&m);
    } else {
        pthread_mutex_lock(&m);
        while (!ready)
            pthread_cond_wait(&set, &m);
        pthread_mutex_unlock(&m);
        seen = value;
    }
    printf("%ld\n", seen);
    return 0;
}
