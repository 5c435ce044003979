// races: 8-18
// as a library, too
// A lane writes an element by a function of the program's own library, and the other one by itself.
#include <omp.h>
#include <stdio.h>

#ifdef LIBRARY
void put(int *to, int what) { *to = what; }
#else
void put(int *to, int what);

int main(void)
{
    int a = 0;
#pragma omp parallel num_threads(2)
    {
        if (omp_get_thread_num()) put(&a, 1);
        else a = 2;
    }
    printf("%d\n", a);
    return 0;
}
#endif
