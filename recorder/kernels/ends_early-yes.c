// races: 14-14
// Two lanes write one element, and then the program ends without what exit does.
#include <stdio.h>
#include <unistd.h>

static int a[4];

int main(void)
{
#pragma omp parallel num_threads(2)
    {
#pragma omp for
        for (int i = 0; i < 4; i++)
            a[i / 4] = i;
    }
    printf("%d\n", a[0]);
    fflush(stdout);
    _exit(0);
}
