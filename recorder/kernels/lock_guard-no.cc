// races: none
// A sum under a mutex of the C++ library.
#include <cstdio>
#include <mutex>

int main()
{
    std::mutex mutex;
    int sum = 0;
#pragma omp parallel for num_threads(4)
    for (int i = 0; i < 100; i++) {
        std::lock_guard<std::mutex> held(mutex);
        sum += i;
    }
    std::printf("%d\n", sum);
}
