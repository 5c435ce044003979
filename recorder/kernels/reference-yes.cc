// races: 8-8
// A lambda adds to a variable of all lanes by reference.
#include <cstdio>

int main()
{
    int count = 0;
    auto add = [&count](int n) { count += n; };
#pragma omp parallel for num_threads(4)
    for (int i = 0; i < 100; i++)
        add(i);
    std::printf("%d\n", count);
}
