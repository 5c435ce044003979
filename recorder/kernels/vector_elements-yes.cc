// races: 11-11
// Each lane reads the element after its own, which another one may write.
#include <cstdio>
#include <vector>

int main()
{
    std::vector<double> a(1000, 1);
#pragma omp parallel for num_threads(4)
    for (int i = 0; i < 999; i++)
        a[i] = a[i + 1];
    std::printf("%g\n", a[5]);
}
