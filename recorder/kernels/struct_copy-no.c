// races: none
// A struct is copied whole while another lane changes what lies after it.
#include <omp.h>
#include <stdio.h>

typedef struct {
    long v[20];
} Block;

static Block from[2], to;

int main(void)
{
#pragma omp parallel num_threads(2)
    if (omp_get_thread_num() == 0)
        to = from[0];
    else
        from[1].v[0] = 1;
    printf("%ld\n", to.v[0]);
    return 0;
}
