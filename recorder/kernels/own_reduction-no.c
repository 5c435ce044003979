// races: none
// A reduction that the program declares.
#include <stdio.h>

typedef struct {
    double sum, count;
} Pair;

__attribute__((noinline)) static void add(Pair *to, const Pair *from)
{
    to->sum += from->sum;
    to->count += from->count;
}

#pragma omp declare reduction(pairs : Pair : add(&omp_out, &omp_in)) initializer(omp_priv = {0, 0})

int main(void)
{
    Pair total = {0, 0};
#pragma omp parallel for num_threads(4) reduction(pairs : total)
    for (int i = 0; i < 64; i++)
        total.sum += i, total.count++;
    printf("%g %g\n", total.sum, total.count);
    return 0;
}
