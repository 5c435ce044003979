// races: none
// All lanes take one mutex of the C library.
#include <pthread.h>
#include <stdio.h>

static pthread_mutex_t m = PTHREAD_MUTEX_INITIALIZER;
static long s;

int main(void)
{
#pragma omp parallel num_threads(4)
    {
        pthread_mutex_lock(&m);
        s = s + 1;
        pthread_mutex_unlock(&m);
    }
    printf("%ld\n", s);
    return 0;
}
