// races: none
// Each lane copies its share, and then clears it.
#include <omp.h>
#include <stdio.h>
#include <string.h>

static char from[512], to[512];

int main(int argc, char **argv)
{
    (void)argv;
#pragma omp parallel num_threads(4)
    {
        memcpy(to + 101 * omp_get_thread_num(), from, 100 + argc);
        memset(to + 101 * omp_get_thread_num(), argc, 100 + argc);
    }
    printf("%d\n", to[7]);
    return 0;
}
