// races: 13-13
// recorder: refused, doesn't instrument
// All lanes raise a bit-field of three bytes.
#include <stdio.h>

static struct __attribute__((packed)) {
    unsigned count : 24;
} f;

int main(void)
{
#pragma omp parallel num_threads(4)
    f.count = f.count + 1;
    printf("%d\n", f.count > 0);
    return 0;
}
