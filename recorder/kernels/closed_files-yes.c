// races: 16-16
// It goes elsewhere and closes all files that it doesn't know, as a server does, before two lanes write one element.
#include <stdio.h>
#include <unistd.h>

static int a[4];

int main(void)
{
    if (chdir("/"))
        return 1;
    for (int file = 3; file < 256; file++)
        close(file);
#pragma omp parallel for num_threads(2)
    for (int i = 0; i < 4; i++)
        a[i / 4] = i;
    printf("%d\n", a[0]);
    return 0;
}
