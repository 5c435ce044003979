// Mutexes: critical sections, locks and `ordered` as the runtime tells of them, a reduction's section, and mutexes of pthreads that --wrap brings
// here.
//
// A Lock is logged with the first access under it, and the log has mutexes in an order of its own: so those that aren't released in reverse order,
// or are held at a barrier or fork, are unlocked and locked again, with no access in between (`locks_may_move`: at each access the same set is
// held). Of more than 8 the first 8 are logged, and that is told.
//
// A mutex's number is its slot in a table by address, which is emptied after each region of the root. One that was destroyed has a new number when it
// is seen again.
//
// May assume: a lane acquires and releases in its own thread; within a reduction's section clang holds one lock, the same for all reductions.
#include "recorder.h"
#include <omp-tools.h>

enum { REDUCTION = 0, GONE = 1, MOST = 61440 }; // a number; what a slot has of a mutex that was destroyed; how many slots are used at most

static _Atomic uint64_t slots[MUTEXES]; // changed with the gate held
static unsigned used;

// ---- Sets, and what the log has of them ----

static bool is_held(const Task *t, const Set *set, unsigned n)
{
    unsigned k = 0;
    while (set->count == n && k < n && set->mutex[k] == t->hold[k].mutex) k++;
    return set->count == n && k == n;
}

// Finds the number of the interval under the mutexes that are held.
void choose_epoch(Task *t)
{
    unsigned n = t->held < HELD ? t->held : HELD;
    Set *set = t->set, *end = set + (t->sets < SETS ? t->sets : SETS);
    while (set < end && !is_held(t, set, n)) set++;
    if (set == end) {
        set = &t->set[t->sets++ % SETS];
        set->count = n;
        for (unsigned k = 0; k < n; k++) set->mutex[k] = t->hold[k].mutex;
        set->epoch = ++me->epochs;
    }
    t->low = set->epoch << 32;
    t->high = set->epoch >> 32 << 48;
    t->spread = hash(set->epoch) >> 32;
}

void drop_locks(Task *t, unsigned to)
{
    while (t->logged > to) {
        t->logged--;
        put_mark(t, UNLOCK, t->in_log[t->logged].line, t->in_log[t->logged].mutex, 0);
    }
}

void log_locks(Task *t)
{
    unsigned same = 0, n = t->held < HELD ? t->held : HELD;
    while (same < n && same < t->logged && t->hold[same].mutex == t->in_log[same].mutex) same++;
    drop_locks(t, same);
    for (; t->logged < n; t->logged++) {
        t->in_log[t->logged] = t->hold[t->logged];
        put_mark(t, LOCK, t->in_log[t->logged].line, t->in_log[t->logged].mutex, 0);
    }
}

// ---- Numbers ----

static bool is_in(unsigned slot, uint64_t id) { return atomic_load_explicit(&slots[slot], memory_order_relaxed) == id; }

// The slot of an id, or the free one where it would stand.
static unsigned slot_of(uint64_t id)
{
    unsigned i = hash(id) >> 48;
    while (i == REDUCTION || !(is_in(i, 0) || is_in(i, id))) i = (i + 1) % MUTEXES;
    return i;
}

// 0 if there is none left.
static unsigned find_number(uint64_t id)
{
    unsigned i = slot_of(id);
    if (is_in(i, id)) return i;
    close_gate();
    i = slot_of(id);
    if (!is_in(i, id) && used < MOST) {
        used++;
        atomic_store(&slots[i], id);
    }
    open_gate();
    return is_in(i, id) ? i : 0;
}

static void forget(uint64_t id)
{
    close_gate();
    unsigned i = slot_of(id);
    if (is_in(i, id)) atomic_store(&slots[i], GONE);
    open_gate();
}

// No region runs.
void mutexes_forget(void)
{
    close_gate();
    for (unsigned i = 0; used && i < MUTEXES; i++) atomic_store_explicit(&slots[i], 0, memory_order_relaxed);
    used = 0;
    open_gate();
}

// ---- Holding ----

static unsigned place_of_hold(const Task *t, unsigned number)
{
    unsigned i = 0;
    while (i < t->held && t->hold[i].mutex != number) i++;
    return i;
}

static void hold(Task *t, unsigned number, uint32_t line)
{
    unsigned i = place_of_hold(t, number);
    if (i < t->held) {
        t->hold[i].times++;
        return;
    }
    if (i >= HELD) cannot(t, WHY_MANY_MUTEXES);
    if (i == HOLDS) return;
    t->hold[t->held++] = (Hold){number, 1, line};
    t->pending |= NEW_LOCKS;
    choose_epoch(t);
}

static void let_go(Task *t, unsigned number)
{
    unsigned i = place_of_hold(t, number);
    if (i == t->held || --t->hold[i].times) return;
    for (t->held--; i < t->held; i++) t->hold[i] = t->hold[i + 1];
    t->pending |= NEW_LOCKS;
    choose_epoch(t);
}

static void acquired(uint64_t id, const void *ra)
{
    Task *t = cur;
    if (!t) return;
    cur = NULL;
    unsigned number = find_number(id);
    if (number) hold(t, number, line_of(ra));
    else cannot(t, WHY_MANY_MUTEXES);
    cur = t;
}

static void released(uint64_t id)
{
    unsigned number = cur ? find_number(id) : 0;
    if (number) let_go(cur, number);
}

// ---- What the runtime tells ----

static void on_mutex_acquired(ompt_mutex_t kind, ompt_wait_id_t id, const void *ra) { acquired(id, ra); }
static void on_mutex_released(ompt_mutex_t kind, ompt_wait_id_t id, const void *ra) { released(id); }
static void on_lock_destroy(ompt_mutex_t kind, ompt_wait_id_t id, const void *ra) { forget(id); }

static void on_reduction(ompt_sync_region_t kind, ompt_scope_endpoint_t end, ompt_data_t *parallel, ompt_data_t *data, const void *ra)
{
    if (!cur) return;
    if (end == ompt_scope_begin) hold(cur, REDUCTION, line_of(ra));
    else let_go(cur, REDUCTION);
}

bool mutexes_start(void *set_callback)
{
    ompt_set_callback_t ask = (ompt_set_callback_t)set_callback;
    return ask ASK(mutex_acquired) ASK(mutex_released) ASK(lock_destroy) ASK(reduction);
}

// ---- Mutexes of pthreads ----

int __real_pthread_mutex_trylock(pthread_mutex_t *);
int __real_pthread_mutex_timedlock(pthread_mutex_t *, const struct timespec *);
int __real_pthread_mutex_destroy(pthread_mutex_t *);
int __real_pthread_spin_lock(pthread_spinlock_t *);
int __real_pthread_spin_trylock(pthread_spinlock_t *);
int __real_pthread_spin_unlock(pthread_spinlock_t *);

// EOWNERDEAD: it was acquired all the same.
static int after(int status, const volatile void *mutex, const void *ra)
{
    if (status == 0 || status == EOWNERDEAD) acquired((uint64_t)mutex, ra);
    return status;
}

int __wrap_pthread_mutex_lock(pthread_mutex_t *m) { return after(__real_pthread_mutex_lock(m), m, RA); }
int __wrap_pthread_mutex_trylock(pthread_mutex_t *m) { return after(__real_pthread_mutex_trylock(m), m, RA); }
int __wrap_pthread_mutex_timedlock(pthread_mutex_t *m, const struct timespec *t) { return after(__real_pthread_mutex_timedlock(m, t), m, RA); }
int __wrap_pthread_spin_lock(pthread_spinlock_t *m) { return after(__real_pthread_spin_lock(m), m, RA); }
int __wrap_pthread_spin_trylock(pthread_spinlock_t *m) { return after(__real_pthread_spin_trylock(m), m, RA); }

int __wrap_pthread_mutex_unlock(pthread_mutex_t *m)
{
    released((uint64_t)m);
    return __real_pthread_mutex_unlock(m);
}

int __wrap_pthread_spin_unlock(pthread_spinlock_t *m)
{
    released((uint64_t)m);
    return __real_pthread_spin_unlock(m);
}

int __wrap_pthread_mutex_destroy(pthread_mutex_t *m)
{
    forget((uint64_t)m);
    return __real_pthread_mutex_destroy(m);
}
