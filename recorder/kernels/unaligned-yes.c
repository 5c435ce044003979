// races: 15-24
// Members of a packed struct that share a byte with an eight-byte store into the whole.
#include <omp.h>
#include <stdio.h>

typedef struct __attribute__((packed)) {
    char first;
    long second;
} Packed;

static Packed p[2];

__attribute__((noinline)) static void put(Packed *to)
{
    to->second = 7;
}

int main(void)
{
#pragma omp parallel num_threads(2)
    if (omp_get_thread_num() == 0)
        put(&p[0]);
    else
        ((char *)p)[8] = 1;
    printf("%d\n", p[0].first);
    return 0;
}
