// races: none
// The program's first critical section is that of a thread which isn't OpenMP's, and ends before the team begins.
#include <pthread.h>
#include <stdio.h>

static int count;

static void *add(void *unused)
{
#pragma omp critical
    count++;
    return unused;
}

int main(void)
{
    pthread_t thread;
    if (pthread_create(&thread, 0, add, 0) || pthread_join(thread, 0))
        return 1;
#pragma omp parallel num_threads(4)
    add(0);
    printf("%d\n", count);
    return 0;
}
