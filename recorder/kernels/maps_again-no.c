// races: none
// Each iteration maps pages where another lane's have been before.
#define _GNU_SOURCE
#include <stdio.h>
#include <sys/mman.h>

static long sum[32];

int main(void)
{
#pragma omp parallel for num_threads(4) schedule(dynamic, 1)
    for (int i = 0; i < 32; i++) {
        long *block = mmap(0, 1 << 20, PROT_READ | PROT_WRITE, MAP_PRIVATE | MAP_ANONYMOUS, -1, 0);
        for (int k = 0; k < 100000; k += 10000)
            block[k] = i;
        sum[i] = block[50000];
        munmap(block, 1 << 20);
    }
    printf("%ld\n", sum[5]);
    return 0;
}
