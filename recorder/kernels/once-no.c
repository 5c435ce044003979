// races: none
// recorder: 10-17, a false alarm: pthread_once orders nothing
// Whichever lane comes first makes the table, and the others wait until it is there.
#include <pthread.h>
#include <stdio.h>

static pthread_once_t once = PTHREAD_ONCE_INIT;
static int table, got[4];

static void make(void) { table = 5; }

int main(void)
{
#pragma omp parallel for num_threads(4)
    for (int i = 0; i < 4; i++) {
        pthread_once(&once, make);
        got[i] = table;
    }
    printf("%d\n", got[3]);
    return 0;
}
