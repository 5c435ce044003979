// races: none
// Each lane moves elements of a vector of its own share.
#include <cstdio>
#include <vector>

int main()
{
    std::vector<double> a(1000, 1), b(1000);
#pragma omp parallel for num_threads(4)
    for (int i = 0; i < 999; i++)
        b[i] = a[i + 1];
    std::printf("%g\n", b[5]);
}
