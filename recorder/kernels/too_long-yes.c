// races: 16-18
// recorder: refused, too many different accesses
// A lane stores to more elements between two barriers than its log has room for.
#include <omp.h>
#include <stdio.h>

enum { BYTES = 4200000 };

static char text[BYTES];

int main(void)
{
#pragma omp parallel num_threads(2)
    if (omp_get_thread_num() == 0)
        for (int i = 0; i < BYTES; i++)
            text[i] = i;
    else
        text[BYTES - 1] = 7;
    printf("%d\n", text[9]);
    return 0;
}
