// races: none
// recorder: refused, too much memory was freed
// Blocks of more than a gigabyte in all are freed before the lanes meet.
#include <omp.h>
#include <stdio.h>
#include <stdlib.h>

static char *volatile last[2];

int main(void)
{
#pragma omp parallel for num_threads(2)
    for (int i = 0; i < 20000; i++) {
        char *block = malloc(60000);
        last[omp_get_thread_num()] = block;
        free(block);
    }
    printf("%d\n", last[0] != last[1]);
    return 0;
}
