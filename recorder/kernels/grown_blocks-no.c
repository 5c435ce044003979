// races: none
// Blocks grow, so that each moves to a place where another lane's has been.
#include <stdio.h>
#include <stdlib.h>

static long sum[32];

int main(void)
{
#pragma omp parallel for num_threads(4) schedule(dynamic, 1)
    for (int i = 0; i < 32; i++) {
        long *block = malloc(10 * sizeof *block);
        for (int n = 10; n < 2000; n += 199) {
            block = realloc(block, n * sizeof *block);
            for (int k = 0; k < n; k += 50)
                block[k] = i;
        }
        sum[i] = block[1750];
        free(block);
    }
    printf("%ld\n", sum[5]);
    return 0;
}
