// races: none
// recorder: 21-29, a false alarm: what mremap leaves isn't held back
// One lane moves its pages away, and another one gets pages where they were.
#define _GNU_SOURCE
#include <stdatomic.h>
#include <stdio.h>
#include <sys/mman.h>

enum { SIZE = 1 << 20, HOW = MAP_PRIVATE | MAP_ANONYMOUS, ROUNDS = 50 };

static atomic_int moved, done;

int main(void)
{
    char *far = mmap(0, 4 * SIZE, PROT_NONE, HOW, -1, 0);
#pragma omp parallel sections num_threads(2)
    {
#pragma omp section
        for (int i = 0; i < ROUNDS; i++) {
            volatile char *pages = mmap(0, SIZE, PROT_READ | PROT_WRITE, HOW, -1, 0);
            pages[5] = 1;
            mremap((void *)pages, SIZE, SIZE, MREMAP_MAYMOVE | MREMAP_FIXED, far);
            for (moved = i + 1; done <= i;) {}
        }
#pragma omp section
        for (int i = 0; i < ROUNDS; i++) {
            while (moved <= i) {}
            volatile char *pages = mmap(0, SIZE, PROT_READ | PROT_WRITE, HOW, -1, 0);
            pages[5] = 2;
            done = i + 1;
        }
    }
    printf("%d\n", far[5]);
    return 0;
}
