// Preloaded into the program: the allocation whose number is in REFUSE_ALLOCATION is refused; so is the start of the thread whose number is in
// REFUSE_THREAD, and of each thread from REFUSE_THREADS_FROM on. The file REFUSE_NOTE is made then.
#define _GNU_SOURCE
#include <dlfcn.h>
#include <errno.h>
#include <fcntl.h>
#include <pthread.h>
#include <stdatomic.h>
#include <stdlib.h>
#include <unistd.h>

static atomic_long asked;
static long refused = -1;
static void *(*next_malloc)(size_t);
static void *(*next_realloc)(void *, size_t);
static atomic_long started;
static long refused_thread = -1;
static long refused_from = -1;

static long number_in(const char *name)
{
    const char *number = getenv(name);
    return number ? atol(number) : 0;
}

__attribute__((constructor)) static void begin(void)
{
    next_malloc = dlsym(RTLD_NEXT, "malloc");
    next_realloc = dlsym(RTLD_NEXT, "realloc");
    asked = 0;
    refused = number_in("REFUSE_ALLOCATION");
    refused_thread = number_in("REFUSE_THREAD");
    refused_from = number_in("REFUSE_THREADS_FROM");
}

static void tell(void)
{
    const char *note = getenv("REFUSE_NOTE");
    int file = note ? open(note, O_CREAT | O_WRONLY, 0600) : -1;
    if (file >= 0)
        close(file);
}

static int is_refused(void)
{
    if (refused < 0 || atomic_fetch_add(&asked, 1) + 1 != refused)
        return 0;
    tell();
    errno = ENOMEM;
    return 1;
}

void *malloc(size_t size)
{
    if (!next_malloc)
        next_malloc = dlsym(RTLD_NEXT, "malloc");
    return is_refused() ? NULL : next_malloc(size);
}

void *realloc(void *block, size_t size)
{
    if (!next_realloc)
        next_realloc = dlsym(RTLD_NEXT, "realloc");
    return is_refused() ? NULL : next_realloc(block, size);
}

int pthread_create(pthread_t *thread, const pthread_attr_t *about, void *(*work)(void *), void *given)
{
    static int (*next)(pthread_t *, const pthread_attr_t *, void *(*)(void *), void *);
    if (!next)
        next = (int (*)(pthread_t *, const pthread_attr_t *, void *(*)(void *), void *))dlsym(RTLD_NEXT, "pthread_create");
    long number = atomic_fetch_add(&started, 1) + 1;
    if (number == refused_thread || (refused_from > 0 && number >= refused_from)) {
        tell();
        return EAGAIN;
    }
    return next(thread, about, work, given);
}
