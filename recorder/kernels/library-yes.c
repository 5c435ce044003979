// races: 15-17
// recorder: none, a miss: what the C library does isn't logged
// The C library writes a text that another lane reads.
#include <omp.h>
#include <stdio.h>
#include <stdlib.h>

static char text[32];
static long seen;

int main(void)
{
#pragma omp parallel num_threads(2)
    if (omp_get_thread_num() == 0)
        snprintf(text, sizeof text, "%d", rand());
    else
        seen = text[0];
    printf("%d\n", seen >= 0);
    return 0;
}
