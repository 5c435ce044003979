// races: none
// recorder: 16-18, a false alarm: a count of references orders nothing
// Two lanes share a block, and whichever lets it go last changes what is in it.
#include <atomic>
#include <cstdio>

struct Block {
    std::atomic<int> count{2};
    int value = 3;
};

static int sum[2];

static void use(Block *block, int lane)
{
    sum[lane] = block->value;
    if (--block->count == 0)
        block->value = 0;
}

int main()
{
    Block block;
#pragma omp parallel for num_threads(2)
    for (int lane = 0; lane < 2; lane++)
        use(&block, lane);
    std::printf("%d\n", sum[0] + sum[1]);
    return 0;
}
