// races: 15-18
// One of the sections updates the sum without the mutex.
#include <cstdio>
#include <mutex>

int main()
{
    std::mutex mutex;
    int sum = 0;
#pragma omp parallel sections num_threads(2)
    {
#pragma omp section
        {
            std::lock_guard<std::mutex> held(mutex);
            sum += 1;
        }
#pragma omp section
        sum += 2;
    }
    std::printf("%d\n", sum);
}
