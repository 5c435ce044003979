// races: 16-16
// Lanes of even and of odd number take different mutexes of the C library.
#include <omp.h>
#include <pthread.h>
#include <stdio.h>

static pthread_mutex_t m[2] = {PTHREAD_MUTEX_INITIALIZER, PTHREAD_MUTEX_INITIALIZER};
static long s;

int main(void)
{
#pragma omp parallel num_threads(4)
    {
        int k = omp_get_thread_num() % 2;
        pthread_mutex_lock(&m[k]);
        s = s + 1;
        pthread_mutex_unlock(&m[k]);
    }
    printf("%ld\n", s);
    return 0;
}
