// Preloaded into the program: no thread with a small stack is made, which would be a task's writer. So each task appends its blocks by itself.
#define _GNU_SOURCE
#include <dlfcn.h>
#include <errno.h>
#include <pthread.h>

static const size_t SMALL = 320 * 1024;

int pthread_create(pthread_t *thread, const pthread_attr_t *about, void *(*work)(void *), void *given)
{
    static int (*next)(pthread_t *, const pthread_attr_t *, void *(*)(void *), void *);
    size_t stack;
    if (!next)
        next = (int (*)(pthread_t *, const pthread_attr_t *, void *(*)(void *), void *))dlsym(RTLD_NEXT, "pthread_create");
    if (about && pthread_attr_getstacksize(about, &stack) == 0 && stack <= SMALL)
        return EAGAIN;
    return next(thread, about, work, given);
}
