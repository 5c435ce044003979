// races: 13-13
// Each lane copies one byte more than its share.
#include <omp.h>
#include <stdio.h>
#include <string.h>

static char from[512], to[512];

int main(int argc, char **argv)
{
    (void)argv;
#pragma omp parallel num_threads(4)
    memcpy(to + 100 * omp_get_thread_num(), from, 100 + argc);
    printf("%d\n", to[7]);
    return 0;
}
