// races: none
// recorder: refused, stacks of more than 64 MB
// Lanes of nested teams have stacks of 128 MB.
#include <omp.h>
#include <stdio.h>

static int a[2][2];

int main(void)
{
    kmp_set_stacksize_s(128 << 20);
    omp_set_max_active_levels(2);
#pragma omp parallel num_threads(2)
    {
        int up = omp_get_thread_num();
#pragma omp parallel num_threads(2)
        a[up][omp_get_thread_num()] = up;
    }
    printf("%d\n", a[1][1]);
    return 0;
}
