// races: none
// Each iteration's block has often been another lane's before: they go back to the system and come from there.
#include <stdio.h>
#include <stdlib.h>

enum { BYTES = 8000000, WORDS = BYTES / sizeof(long) };

static long sum[32];

int main(void)
{
#pragma omp parallel for num_threads(4) schedule(dynamic, 1)
    for (int i = 0; i < 32; i++) {
        long *block = malloc(BYTES);
        for (int k = 0; k < WORDS; k += WORDS / 10)
            block[k] = i;
        for (int k = 0; k < WORDS; k += WORDS / 10)
            sum[i] += block[k];
        free(block);
    }
    printf("%ld\n", sum[5]);
    return 0;
}
