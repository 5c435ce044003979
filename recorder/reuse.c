// Memory that is used again while a region of the root runs, and threads, whose stacks are such memory. Two lanes that use the same memory for
// different things, one after the other, don't race; so nothing may be at one address in the logs twice, unless barriers or joins of the root's
// team lie between.
//
// - What is freed or unmapped in a region is held back until the lane's thread has passed a barrier of the root's team, or until the region ends.
//   Of large blocks and of mappings only the addresses are: their memory is given back at once. realloc moves.
// - In a team of the root a lane is one thread, whose stack is in one order with the lane. Of a nested team the lanes from 1 on are threads of a
//   pool, which go from team to team: what is in the stack of such a thread (thread-local variables lie there, too) is logged with an address from
//   2^47 on, other ones for each lane that the thread was, also where other lanes access it.
//
// May assume: --wrap brings free, realloc, reallocarray, munmap and mmap of the program here, and only the program's; user addresses are below
// 2^47; a page isn't put by MAP_FIXED where a program that never did so before has just unmapped one.
#include "recorder.h"
#include <malloc.h>

enum { LARGE = 65536, NAME_BITS = 21, STACK_BITS = 26 };

__thread Thread *me;
atomic_uint stack_names;
static _Atomic(Thread *) threads; // one that has ended stays here: the runtime's go on to its end
static atomic_ullong held_bytes;
static atomic_bool placed; // the program places mappings itself
static uint64_t most_held;

void reuse_start(void) { most_held = setting("SWORDREC_HOLD", 0, 1ull << 40, 1ull << 30); }

// ---- Blocks ----

static void release(Thread *t)
{
    while (t->held_count) {
        Held held = t->held[--t->held_count];
        if (!held.mapped) {
            atomic_fetch_sub_explicit(&held_bytes, held.bytes, memory_order_relaxed);
            free(held.at);
        } else if (!atomic_load(&placed)) {
            munmap(held.at, held.mapped); // if it can't be, its addresses stay taken
        }
    }
}

// At a barrier of the root's team, after it: all that used these blocks is before the barrier.
void release_own(void) { release(me); }

// No lane of the root's region runs any more.
void release_all(void)
{
    for (Thread *t = atomic_load(&threads); t; t = t->next) release(t);
    atomic_store(&stack_names, 0);
    atomic_store(&quick_length, text_length);
}

static inline bool in_region(void) { return atomic_load_explicit(&regions_now, memory_order_relaxed) && me; }

static bool hold_back(void *block, size_t mapped, size_t bytes)
{
    Held *held = grown(me->held, &me->held_room, me->held_count, sizeof *held);
    if (!held) return false;
    me->held = held;
    me->held[me->held_count++] = (Held){block, mapped, bytes};
    return true;
}

// Gives back the whole pages in a block, and answers how many bytes are left.
static size_t hollow(void *block, size_t size)
{
    uintptr_t page = sysconf(_SC_PAGESIZE), from = ((uintptr_t)block + page - 1) & -page, to = ((uintptr_t)block + size) & -page;
    if (size < LARGE || madvise((void *)from, to - from, MADV_DONTNEED)) return size;
    return size - (to - from);
}

void __wrap_free(void *block)
{
    int error = errno;
    if (block && in_region()) {
        size_t size = hollow(block, malloc_usable_size(block));
        if (atomic_fetch_add_explicit(&held_bytes, size, memory_order_relaxed) + size <= most_held && hold_back(block, 0, size)) {
            errno = error;
            return;
        }
        atomic_fetch_sub_explicit(&held_bytes, size, memory_order_relaxed);
        cannot(cur, WHY_FREED);
    }
    free(block);
    errno = error;
}

void *__wrap_realloc(void *block, size_t size)
{
    if (!block || !in_region()) return realloc(block, size);
    if (!size) {
        __wrap_free(block);
        return NULL;
    }
    void *moved = malloc(size);
    size_t had = malloc_usable_size(block);
    if (!moved) return NULL;
    memcpy(moved, block, had < size ? had : size);
    __wrap_free(block);
    return moved;
}

void *__wrap_reallocarray(void *block, size_t count, size_t size)
{
    size_t bytes;
    if (__builtin_mul_overflow(count, size, &bytes)) {
        errno = ENOMEM;
        return NULL;
    }
    return __wrap_realloc(block, bytes);
}

// C++'s operators, if the program has none of its own: its library's `new` gives blocks of malloc, and its other forms of `delete` call these.
__attribute__((weak, visibility("default"))) void _ZdlPv(void *block) { __wrap_free(block); }
__attribute__((weak, visibility("default"))) void _ZdlPvSt11align_val_t(void *block, size_t alignment) { __wrap_free(block); }

int __wrap_munmap(void *at, size_t size)
{
    if (in_region() && size && !((uintptr_t)at & (sysconf(_SC_PAGESIZE) - 1))) {
        int how = MAP_PRIVATE | MAP_ANONYMOUS | MAP_FIXED | MAP_NORESERVE;
        if (mmap(at, size, PROT_NONE, how, -1, 0) != MAP_FAILED) {
            if (hold_back(at, size, 0)) return 0;
            cannot(cur, WHY_MEMORY);
        }
    }
    return munmap(at, size);
}

void *__wrap_mmap(void *at, size_t size, int protection, int flags, int file, off_t offset)
{
    if (flags & MAP_FIXED) atomic_store(&placed, true);
    return mmap(at, size, protection, flags, file, offset);
}

// ---- Threads and their stacks ----

// Makes what a thread needs to run lanes.
bool enter_thread(void)
{
    if (me) return true;
    Thread *t = calloc(1, sizeof *t);
    if (!t) return false;
    t->seen = mmap(NULL, SEEN * sizeof(Seen), PROT_READ | PROT_WRITE, MAP_PRIVATE | MAP_ANONYMOUS, -1, 0);
    if (t->seen == MAP_FAILED) {
        free(t);
        return false;
    }
    t->next = atomic_load(&threads);
    while (!atomic_compare_exchange_weak(&threads, &t->next, t)) {}
    me = t;
    return true;
}

// Finds this thread's stack. False: it can't be named, and that was told.
static bool find_stack(void)
{
    pthread_attr_t attributes;
    void *low = NULL;
    size_t size = 0;
    if (atomic_load(&me->high)) return true;
    if (!pthread_getattr_np(pthread_self(), &attributes)) {
        if (pthread_attr_getstack(&attributes, &low, &size)) size = 0;
        pthread_attr_destroy(&attributes);
    }
    if (!size || size > 1ul << STACK_BITS) {
        cannot(NULL, WHY_STACKS);
        return false;
    }
    atomic_store(&me->low, (uint64_t)low);
    atomic_store(&me->high, (uint64_t)low + size);
    return true;
}

// Gives this thread's stack a name of its own, for the lane that it is now.
void name_stack(void)
{
    if (!find_stack()) return;
    uint32_t name = atomic_fetch_add(&stack_names, 1) + 1;
    atomic_store(&quick_length, 0);
    if (name >= 1u << NAME_BITS) cannot(NULL, WHY_STACKS);
    atomic_store_explicit(&me->name, name, memory_order_relaxed);
}

void unname_stack(void) { atomic_store_explicit(&me->name, 0, memory_order_relaxed); }

// The address under which the log has this one.
uint64_t named(uint64_t address)
{
    for (Thread *t = atomic_load_explicit(&threads, memory_order_acquire); t; t = t->next) {
        uint32_t name = atomic_load_explicit(&t->name, memory_order_relaxed);
        uint64_t low = atomic_load_explicit(&t->low, memory_order_relaxed);
        if (name && address >= low && address < atomic_load_explicit(&t->high, memory_order_relaxed))
            return (1ull << 47) + ((uint64_t)name << STACK_BITS | (address - low));
    }
    return address;
}
