// races: none
// A lambda adds to a variable of its lane by reference.
#include <cstdio>

int main()
{
    int counts[4] = {};
#pragma omp parallel num_threads(4)
    {
        int count = 0;
        auto add = [&count](int n) { count += n; };
#pragma omp for
        for (int i = 0; i < 100; i++)
            add(i);
#pragma omp critical
        counts[0] += count;
    }
    std::printf("%d\n", counts[0]);
}
