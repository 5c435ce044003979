// races: none
// recorder: 9-14, a false alarm: a static variable that is made at its first use orders nothing
// The first lane that comes makes the table, and all others wait for it.
#include <cstdio>

struct Table {
    int entry;
    __attribute__((noinline)) Table()
        : entry(std::getchar() == EOF ? 7 : 8) {}
};

static int look_up()
{
    static Table table; return table.entry;
}

int main()
{
    int sum = 0;
#pragma omp parallel num_threads(4) reduction(+ : sum)
    sum += look_up();
    std::printf("%d\n", sum);
}
