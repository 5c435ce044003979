// races: none
// Members of a packed struct lie side by side.
#include <omp.h>
#include <stdio.h>

typedef struct __attribute__((packed)) {
    char first;
    long second;
} Packed;

static Packed p[2];

__attribute__((noinline)) static void put(Packed *to)
{
    to->second = 7;
}

int main(void)
{
#pragma omp parallel num_threads(2)
    if (omp_get_thread_num() == 0)
        put(&p[0]);
    else
        ((char *)p)[9] = 1;
    printf("%d\n", p[1].first);
    return 0;
}
