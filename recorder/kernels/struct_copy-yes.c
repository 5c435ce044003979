// races: 16-18
// A struct is copied whole while another lane changes its last member.
#include <omp.h>
#include <stdio.h>

typedef struct {
    long v[20];
} Block;

static Block from, to;

int main(void)
{
#pragma omp parallel num_threads(2)
    if (omp_get_thread_num() == 0)
        to = from;
    else
        from.v[19] = 1;
    printf("%ld\n", to.v[0]);
    return 0;
}
