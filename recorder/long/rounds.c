// Thirty regions with a race in each, and another one in the eighth: some 16 MB of logs.
#include <stdio.h>

static int a[30001], count;

int main(void)
{
    for (int round = 0; round < 30; round++) {
#pragma omp parallel for num_threads(2)
        for (int i = 0; i < 30000; i++)
            a[i] = a[i + 1] + round;
        if (round == 7) {
#pragma omp parallel num_threads(2)
            count++;
        }
    }
    printf("%d\n", count);
    return 0;
}
