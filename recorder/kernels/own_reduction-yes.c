// races: 13-13 14-14
// Each lane adds its pair to one total by hand.
#include <stdio.h>

typedef struct {
    double sum, count;
} Pair;

static Pair total;

__attribute__((noinline)) static void add(Pair *to, const Pair *from)
{
    to->sum += from->sum;
    to->count += from->count;
}

int main(void)
{
#pragma omp parallel num_threads(4)
    {
        Pair mine = {0, 0};
#pragma omp for nowait
        for (int i = 0; i < 64; i++)
            mine.sum += i, mine.count++;
        add(&total, &mine);
    }
    printf("%g %g\n", total.sum, total.count);
    return 0;
}
