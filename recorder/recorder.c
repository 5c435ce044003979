// Start and end: the tool that the OpenMP runtime finds in the program, settings, and what is told on standard error.
//
// May assume: the program was linked by swordcc, so its constructors run this one first, in the main thread, with the runtime loaded.
#include "recorder.h"
#include <omp-tools.h>
#include <omp.h>

pthread_mutex_t gate = PTHREAD_MUTEX_INITIALIZER;
static bool found, started, child; // found: the runtime asked for the tool
static atomic_bool over;
static atomic_uint lost, told; // bits: whys for good, and all whys
static pid_t process;

void tell_of(unsigned why) { atomic_fetch_or_explicit(&told, 1u << why, memory_order_relaxed); }

// Asked at each fork of the root, too: so a child process that forks a team is told of.
bool lost_for_good(void)
{
    if (child) {
        child = false;
        say("a child process isn't recorded");
    }
    return atomic_load_explicit(&lost, memory_order_relaxed) != 0;
}

void cannot(Task *t, unsigned why)
{
    tell_of(why);
    if (t && t->part) fail_folder(t->part, why);
    else atomic_fetch_or_explicit(&lost, 1u << why, memory_order_relaxed);
}

// A number from the environment.
uint64_t setting(const char *name, uint64_t least, uint64_t most, uint64_t otherwise)
{
    const char *text = getenv(name);
    char *end;
    if (!text || !*text) return otherwise;
    errno = 0;
    unsigned long long value = strtoull(text, &end, 10);
    if (!errno && !*end && text[0] != '-' && value >= least && value <= most) return value;
    say("%s isn't a number from %llu to %llu", name, (unsigned long long)least, (unsigned long long)most);
    return otherwise;
}

void *grown(void *items, size_t *room, size_t count, size_t size)
{
    if (count < *room) return items;
    size_t more = *room ? 2 * *room : 4;
    void *moved = realloc(items, more * size);
    if (moved) *room = more;
    return moved;
}

static void finish(void)
{
#define TEXT(name, text) text,
    static const char *const whys[] = {WHYS(TEXT)};
#undef TEXT
    if (!started || getpid() != process || atomic_exchange(&over, true)) return;
    cur = NULL;
    bool within = atomic_load(&regions_now) != 0;
    if (within) cannot(NULL, WHY_WITHIN);
    folder_end(within);
    for (unsigned i = 0; i < WHYS_COUNT; i++)
        if (atomic_load(&told) >> i & 1) say("%s", whys[i]);
    lines_tell();
}

// A child process has the parent's folders in its memory, and must leave them alone.
static void in_child(void)
{
    open_gate();
    child = true;
    atomic_fetch_or(&lost, 1u << WHY_WITHIN);
    cur = NULL;
}

static int on_start(ompt_function_lookup_t look_up, int device, ompt_data_t *tool)
{
    process = getpid();
    lines_start();
    reuse_start();
    found = true;
    if (!folder_start() || !teams_start((void *)look_up)) {
        say("nothing is recorded");
        return 0;
    }
    started = true;
    if (pthread_atfork(close_gate, open_gate, in_child) || atexit(finish) || at_quick_exit(finish)) cannot(NULL, WHY_MEMORY);
    return 1;
}

static void on_finish(ompt_data_t *tool) { finish(); }

ompt_start_tool_result_t *ompt_start_tool(unsigned version, const char *runtime)
{
    static ompt_start_tool_result_t result = {on_start, on_finish, {0}};
    return &result;
}

// Starts the runtime before threads are there: libomp 14 crashes where a tool asks for mutexes and its first call is a critical section in another
// thread.
static __attribute__((constructor(101))) void start(void)
{
    ours = true;
    omp_get_max_threads();
    if (!found) say("nothing is recorded: the OpenMP runtime started no tool");
}

// What skipped.h calls from a program or library in which swordcc found accesses that the compiler doesn't instrument.
void swordrec_skips(void) { cannot(NULL, WHY_SKIPPED); }

__attribute__((noreturn)) void __real__exit(int);

__attribute__((noreturn)) void __wrap__exit(int status)
{
    finish();
    __real__exit(status);
}

__attribute__((noreturn, alias("__wrap__exit"))) void __wrap__Exit(int status);
