// races: none
// Each iteration's array has often been another lane's before: it goes back to the system and comes from there.
#include <cstdio>

enum { COUNT = 1000000 };

struct Pair {
    long one, other;
};

int main()
{
    long sum = 0;
#pragma omp parallel for num_threads(4) schedule(dynamic, 1) reduction(+ : sum)
    for (int i = 0; i < 32; i++) {
        Pair *pair = new Pair[COUNT];
        for (int k = 0; k < COUNT; k += COUNT / 10)
            pair[k].one = pair[k].other = i;
        sum += pair[COUNT / 2].one;
        delete[] pair;
    }
    std::printf("%ld\n", sum);
}
