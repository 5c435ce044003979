// races: none
// recorder: 16-20, a false alarm: a semaphore orders nothing
// One lane waits for the other one by a semaphore.
#include <omp.h>
#include <semaphore.h>
#include <stdio.h>

static sem_t ready;
static int value, got;

int main(void)
{
    if (sem_init(&ready, 0, 0)) return 1;
#pragma omp parallel num_threads(2)
    if (omp_get_thread_num() == 0) {
        value = 7;
        sem_post(&ready);
    } else {
        while (sem_wait(&ready)) {}
        got = value;
    }
    printf("%d\n", got);
    return 0;
}
