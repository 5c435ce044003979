// races: none
// recorder: 16-20, a false alarm: a lock for readers and writers is no mutex
// One lane writes under the lock, and the others read under it.
#include <omp.h>
#include <pthread.h>
#include <stdio.h>

static pthread_rwlock_t lock = PTHREAD_RWLOCK_INITIALIZER;
static int value, got[4];

int main(void)
{
#pragma omp parallel num_threads(4)
    if (omp_get_thread_num() == 0) {
        pthread_rwlock_wrlock(&lock);
        value = 5;
        pthread_rwlock_unlock(&lock);
    } else {
        pthread_rwlock_rdlock(&lock);
        got[omp_get_thread_num()] = value;
        pthread_rwlock_unlock(&lock);
    }
    printf("%d\n", got[3]);
    return 0;
}
