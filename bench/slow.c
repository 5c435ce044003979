// Preloaded into the program: each write to a file, not to a console or a pipe, takes 100 microseconds longer.
#define _GNU_SOURCE
#include <dlfcn.h>
#include <sys/prctl.h>
#include <sys/stat.h>
#include <time.h>
#include <unistd.h>

ssize_t write(int file, const void *bytes, size_t count)
{
    static ssize_t (*next)(int, const void *, size_t);
    if (!next)
        next = (ssize_t (*)(int, const void *, size_t))dlsym(RTLD_NEXT, "write");
    struct stat about;
    if (fstat(file, &about) == 0 && S_ISREG(about.st_mode)) {
        struct timespec pause = {0, 100000};
        // Else the system may take 50 microseconds more.
        prctl(PR_SET_TIMERSLACK, 1);
        nanosleep(&pause, NULL);
    }
    return next(file, bytes, count);
}

// The name by which the program calls it.
ssize_t __write(int file, const void *bytes, size_t count)
{
    return write(file, bytes, count);
}
