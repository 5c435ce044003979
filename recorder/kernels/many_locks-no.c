// races: none
// recorder: refused, more than 61,440
// Each element has a lock, and there are 70,000.
#include <omp.h>
#include <stdio.h>

enum { COUNT = 70000 };
static omp_lock_t lock[COUNT];
static int a[COUNT];

int main(void)
{
    for (int i = 0; i < COUNT; i++)
        omp_init_lock(&lock[i]);
#pragma omp parallel num_threads(2)
    for (int i = 0; i < COUNT; i++) {
        omp_set_lock(&lock[i]);
        a[i]++;
        omp_unset_lock(&lock[i]);
    }
    printf("%d\n", a[5]);
    return 0;
}
