// races: none
// One lane stores four bytes, another one the byte after them.
#include <omp.h>
#include <stdio.h>

static union {
    int whole[2];
    char byte[8];
} u;

int main(void)
{
#pragma omp parallel num_threads(2)
    if (omp_get_thread_num() == 0)
        u.whole[0] = 1;
    else
        u.byte[4] = 2;
    printf("%d\n", u.whole[0]);
    return 0;
}
