// races: none
// Only the lane with the last iteration gives its value to the variable.
#include <stdio.h>

int main(void)
{
    long last = 0;
#pragma omp parallel for num_threads(4) schedule(static, 1) lastprivate(last)
    for (int i = 0; i < 4; i++)
        last = i * i;
    printf("%ld\n", last);
    return 0;
}
