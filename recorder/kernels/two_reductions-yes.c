// races: 12-24
// recorder: none, a miss: all reductions hold one mutex here
// with KMP_FORCE_REDUCTION=critical
// as a library, too
// A library's team and one of the program's own reduce to one variable at once, and nothing orders the one sum after the other.
#include <omp.h>
#include <stdio.h>
void multiply(double *product);
#if defined(LIBRARY)
void multiply(double *product)
{
#pragma omp parallel num_threads(2) reduction(* : product[:1])
    product[0] *= 1 + omp_get_thread_num();
}
#else
int main(void)
{
    static double product[1] = {1};
    omp_set_max_active_levels(2);
#pragma omp parallel num_threads(2)
    if (omp_get_thread_num() == 0)
        multiply(product);
    else {
#pragma omp parallel num_threads(2) reduction(* : product[:1])
        product[0] *= 1 + omp_get_thread_num();
    }
    printf("%d\n", product[0] > 0);
    return 0;
}
#endif
