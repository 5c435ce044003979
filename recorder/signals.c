// Signals: a handler may interrupt the recorder itself, or its lane in a barrier. So what a handler accesses isn't recorded, and where it ran in a
// thread of a region, that is told.
//
// May assume: --wrap brings sigaction and signal of the program here.
#include "recorder.h"
#include <signal.h>

int __real_sigaction(int, const struct sigaction *, struct sigaction *);

typedef void Handler(int number, siginfo_t *info, void *context);
static _Atomic(Handler *) handlers[NSIG]; // the program's own. One that wants only the number may have the others, too

static void on_signal(int number, siginfo_t *info, void *context)
{
    Task *keep = cur;
    if (ours && atomic_load(&regions_now)) cannot(keep, WHY_HANDLER);
    cur = NULL;
    atomic_load(&handlers[number])(number, info, context);
    cur = keep;
}

int __wrap_sigaction(int number, const struct sigaction *asked, struct sigaction *old)
{
    if (number < 1 || number >= NSIG) return __real_sigaction(number, asked, old);
    Handler *before = atomic_load(&handlers[number]);
    struct sigaction own;
    if (asked && asked->sa_handler != SIG_DFL && asked->sa_handler != SIG_IGN) {
        own = *asked;
        own.sa_flags |= SA_SIGINFO;
        own.sa_sigaction = on_signal;
        atomic_store(&handlers[number], asked->sa_sigaction);
        asked = &own;
    }
    int status = __real_sigaction(number, asked, old);
    if (!status && old && old->sa_sigaction == on_signal) old->sa_sigaction = before;
    return status;
}

void (*__wrap_signal(int number, void (*handler)(int)))(int)
{
    struct sigaction asked = {.sa_handler = handler, .sa_flags = SA_RESTART}, old;
    return __wrap_sigaction(number, &asked, &old) ? SIG_ERR : old.sa_handler;
}
