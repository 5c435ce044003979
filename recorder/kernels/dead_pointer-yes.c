// races: 19-26
// recorder: none, a miss: a freed block is held back, so the other lane gets another one
// A lane writes where it has freed a block, and where another lane's block is by then.
#include <stdatomic.h>
#include <stdio.h>
#include <stdlib.h>

static atomic_int freed;

int main(void)
{
#pragma omp parallel sections num_threads(2)
    {
#pragma omp section
        {
            volatile char *dead = malloc(10000000), *again = dead;
            free((void *)dead);
            freed = 1;
            again[5] = 1;
        }
#pragma omp section
        {
            while (!freed) {}
            char *block = malloc(10000000);
            if (block)
                block[5] = 2;
        }
    }
    return 0;
}
