// What clang's -fsanitize=thread calls before each access, and memcpy, memmove and memset, which --wrap brings here.
//
// An access is left out if the thread's table still has one that stands for it: logged in the same interval of the same task, under the same
// mutexes, in the same line, with the same first byte and size, and of the same kind, or a Write for a Read. A Read that is still in the block
// becomes the Write that follows it. Both by the law `accesses_may_be_dropped`, whose interval lies between two barriers of the task, over forks
// and joins. The root's accesses aren't logged at all, by `root_accesses_may_be_dropped`. Values are 0 and a site is a column, by
// `values_do_not_matter`.
//
// May assume: `cur` is the lane that this thread runs, or NULL in the root, within the runtime and in a thread that isn't OpenMP's. No signal handler
// that is compiled so interrupts it.
#include "recorder.h"

__thread Task *cur;
__thread bool ours;

static inline bool is_ready(const Task *t) { return !t->pending && !is_full(t); }

// Does what must come before the next access.
static void prepare(Task *t)
{
    if (t->pending & NEW_LOCKS) log_locks(t);
    if (t->pending & NEW_SEGMENT) open_segment(t);
    t->pending = 0;
    if (is_full(t)) flush(t);
}

static inline bool is_of(const Seen *seen, uint64_t what, uint64_t when) { return seen->what == what && seen->when == when; }
static inline uint64_t logged(const Seen *seen, unsigned kind) { return kind == WRITE ? seen->writes : seen->any; }

static inline void put(Task *t, uint64_t head, uint64_t address) { *t->at++ = record(head, address, 0); }

static inline uint64_t bit_of(uint64_t what, uint64_t address) { return 1ull << (address >> (what >> 3 & 3) & 63); }

static inline void add_bit(Seen *seen, unsigned kind, uint64_t bit)
{
    seen->any |= bit;
    if (kind == WRITE) seen->writes |= bit;
}

// Logs a Write where the table has the Read that it stands for: that one becomes the Write, if it is one of the last records.
static void put_over_read(Task *t, uint64_t head, uint64_t address)
{
    const uint64_t kind_and_site = 0xff00ffff00000000ull;
    for (Record *old = t->at; old > t->since && old > t->at - 4;) {
        uint64_t was = __builtin_bswap64((--old)->head);
        if (old->address == __builtin_bswap64(address) && was >> 56 == READ && !((was ^ head) & ~kind_and_site)) {
            *old = record(head, address, 0);
            return;
        }
    }
    put(t, head, address);
}

// Brings what stands for the access to the first place of its set, does what must come before it, and logs it if nothing stands for it.
static __attribute__((noinline)) void add_rare(Task *t, Seen *seen, uint64_t what, uint64_t when, uint64_t address, uint64_t head)
{
    unsigned kind = head >> 56;
    uint64_t bit = bit_of(what, address);
    if (!is_ready(t)) prepare(t);
    if (!is_of(seen, what, when)) {
        Seen older = seen[1];
        seen[1] = seen[0];
        seen[0] = is_of(&older, what, when) ? older : (Seen){what, when, 0, 0};
        if (logged(seen, kind) & bit) return;
    }
    bool was_read = seen->any & bit;
    add_bit(seen, kind, bit);
    if (was_read) put_over_read(t, head, address);
    else put(t, head, address);
}

// The same, where it is little to do. Apart, since most accesses don't come here.
static __attribute__((noinline)) void add(Task *t, Seen *seen, uint64_t what, uint64_t when, uint64_t address, uint64_t head)
{
    uint64_t bit = bit_of(what, address);
    if (is_of(seen, what, when) && !(seen->any & bit) && is_ready(t)) {
        add_bit(seen, head >> 56, bit);
        put(t, head, address);
    } else {
        add_rare(t, seen, what, when, address, head);
    }
}

// An access of 1, 2, 4 or 8 bytes.
static inline __attribute__((always_inline)) void note_at(Task *t, unsigned kind, unsigned size, uint64_t address, uint64_t place)
{
    const unsigned shift = size == 1 ? 0 : size == 2 ? 1 : size == 4 ? 2 : 3, class = (kind == UPDATE) << 5 | shift << 3;
    uint32_t line = place;
    uint64_t block = address >> (6 + shift), when = t->low + line;
    uint64_t what = block << (6 + shift) | class | (address & (size - 1)) | t->high;
    Seen *seen = &t->seen[2 * (((uint32_t)block + (uint32_t)(block >> SET_BITS) * 9 + line * 2531 + t->spread) % (SEEN / 2))];
    if (__builtin_expect(!is_of(seen, what, when) || !(logged(seen, kind) >> (address >> shift & 63) & 1), 0))
        add(t, seen, what, when, address, (uint64_t)kind << 56 | (uint64_t)size << 48 | place);
}

// The same where the place isn't known yet, or stacks have names.
static __attribute__((noinline)) void note_slowly(unsigned kind, unsigned size, uint64_t address, const void *return_address)
{
    Task *t = cur;
    uint64_t place = find_place(return_address);
    if (place == UNKNOWN) cannot(NULL, WHY_LINES);
    if (atomic_load_explicit(&stack_names, memory_order_relaxed)) address = named(address);
    switch (size) { // so that it is known where note_at is compiled
    case 1: note_at(t, kind, 1, address, place); break;
    case 2: note_at(t, kind, 2, address, place); break;
    case 4: note_at(t, kind, 4, address, place); break;
    default: note_at(t, kind, 8, address, place);
    }
}

// An access of none of the lanes.
static __attribute__((noinline)) void note_other(void)
{
    if (!ours && atomic_load_explicit(&regions_now, memory_order_relaxed)) cannot(NULL, WHY_THREADS);
}

static inline __attribute__((always_inline)) void note(unsigned kind, unsigned size, const volatile void *where, const void *return_address)
{
    Task *t = cur;
    uint64_t address = (uint64_t)where, offset = (uint64_t)return_address - text_low;
    if (!t) {
        note_other();
        return;
    }
    uint64_t place = offset < atomic_load_explicit(&quick_length, memory_order_relaxed) ? atomic_load_explicit(&places[offset], memory_order_relaxed) : 0;
    const unsigned part = size == 16 ? 8 : size; // 16 bytes are two accesses
    for (unsigned from = 0; from < size; from += part) {
        if (__builtin_expect(!place, 0)) note_slowly(kind, part, address + from, return_address);
        else note_at(t, kind, part, address + from, place);
    }
}

static void note_range(unsigned kind, const void *from, size_t count, const void *return_address)
{
    uint64_t at = (uint64_t)from, end = at + count;
    if (!cur && count) note_other();
    while (cur && at < end) {
        unsigned size = 8;
        while (at % size || at + size > end) size /= 2;
        note_slowly(kind, size, at, return_address);
        at += size;
    }
}

// ---- What the instrumentation calls ----

void __tsan_init(void) {}

#define CALL(N, NAME, KIND) \
    void __tsan_##NAME##N(void *a) { note(KIND, N, a, RA); } \
    void __tsan_unaligned_##NAME##N(void *a) { note(KIND, N, a, RA); }
#define PLAIN(N) CALL(N, read, READ) CALL(N, write, WRITE) CALL(N, read_write, WRITE)
PLAIN(1)
PLAIN(2)
PLAIN(4)
PLAIN(8)
PLAIN(16)

void __tsan_vptr_read(void **a) { note(READ, 8, a, RA); }
void __tsan_vptr_update(void **a, void *v) { note(WRITE, 8, a, RA); }

// An atomic access of any kind is an Update, since only updates don't race with each other. Any order is done as the strongest one.
#define FETCH(N, T, WHAT) \
    T __tsan_atomic##N##_fetch_##WHAT(volatile T *a, T v, int o) { note(UPDATE, N / 8, a, RA); return __atomic_fetch_##WHAT(a, v, 5); }
#define ATOMIC(N, T) \
    T __tsan_atomic##N##_load(const volatile T *a, int o) { note(UPDATE, N / 8, a, RA); return __atomic_load_n(a, 5); } \
    void __tsan_atomic##N##_store(volatile T *a, T v, int o) { note(UPDATE, N / 8, a, RA); __atomic_store_n(a, v, 5); } \
    T __tsan_atomic##N##_exchange(volatile T *a, T v, int o) { note(UPDATE, N / 8, a, RA); return __atomic_exchange_n(a, v, 5); } \
    FETCH(N, T, add) FETCH(N, T, sub) FETCH(N, T, and) FETCH(N, T, or) FETCH(N, T, xor) FETCH(N, T, nand) \
    T __tsan_atomic##N##_compare_exchange_val(volatile T *a, T c, T v, int o, int f) \
    { \
        note(UPDATE, N / 8, a, RA); \
        __atomic_compare_exchange_n(a, &c, v, 0, 5, 5); \
        return c; \
    }
ATOMIC(8, uint8_t)
ATOMIC(16, uint16_t)
ATOMIC(32, uint32_t)
ATOMIC(64, uint64_t)

void __tsan_atomic_thread_fence(int o) { __atomic_thread_fence(5); }
void __tsan_atomic_signal_fence(int o) { __atomic_signal_fence(5); }

void *__real_memmove(void *, const void *, size_t);
void *__real_memset(void *, int, size_t);

void *__wrap_memcpy(void *to, const void *from, size_t n)
{
    note_range(READ, from, n, RA);
    note_range(WRITE, to, n, RA);
    return __real_memcpy(to, from, n);
}

void *__wrap_memmove(void *to, const void *from, size_t n)
{
    note_range(READ, from, n, RA);
    note_range(WRITE, to, n, RA);
    return __real_memmove(to, from, n);
}

void *__wrap_memset(void *to, int byte, size_t n)
{
    note_range(WRITE, to, n, RA);
    return __real_memset(to, byte, n);
}
