// races: none
// Each lane draws a ticket and reads its number in one step, and fills the place of that number.
#include <omp.h>
#include <stdio.h>

static long next, place[4];

int main(void)
{
#pragma omp parallel num_threads(4)
    {
        long mine;
#pragma omp atomic capture
        mine = next++;
        place[mine] = omp_get_thread_num();
    }
    printf("%ld\n", place[0] + place[1] + place[2] + place[3]);
    return 0;
}
