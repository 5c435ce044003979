// races: 21-21
// recorder: refused, a construct was cancelled
// A loop is cancelled by each lane that finds what it looks for. The program starts itself again with the variable that this takes.
#include <omp.h>
#include <stdio.h>
#include <stdlib.h>
#include <unistd.h>

int main(int count, char **words)
{
    if (!omp_get_cancellation()) {
        setenv("OMP_CANCELLATION", "true", 1);
        execv("/proc/self/exe", words);
        return 1;
    }
    int found = 0;
#pragma omp parallel num_threads(4)
#pragma omp for
    for (int i = 0; i < 1000; i++)
        if (i % 100 == 77) {
            found = i;
#pragma omp cancel for
        }
    printf("%d\n", found > 0);
    return 0;
}
