// races: 14-14 19-19
// recorder: 14-14, a miss: a child process isn't recorded
// A child process has a race of its own.
#include <stdio.h>
#include <sys/wait.h>
#include <unistd.h>

static int a[8];

int main(void)
{
#pragma omp parallel for num_threads(2)
    for (int i = 0; i < 4; i++)
        a[i / 4] = i;
    pid_t child = fork();
    if (child == 0) {
#pragma omp parallel for num_threads(2)
        for (int i = 0; i < 4; i++)
            a[4 + i / 4] = i;
        _exit(0);
    }
    int status = 0;
    waitpid(child, &status, 0);
    printf("%d %d\n", a[0], status);
    return 0;
}
