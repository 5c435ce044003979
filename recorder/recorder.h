// What the files of the recorder share. README.md says what it is; each file says at its top what it does and what it may assume.
#ifndef RECORDER_H
#define RECORDER_H

#define _GNU_SOURCE
#include <errno.h>
#include <pthread.h>
#include <stdatomic.h>
#include <stdbool.h>
#include <stdint.h>
#include <stdio.h>
#include <stdlib.h>
#include <string.h>
#include <sys/mman.h>
#include <unistd.h>

// Kinds of records, and limits of the format (docs/FORMATS.md).
enum { READ = 1, WRITE = 2, LOCK = 3, UNLOCK = 4, BARRIER = 5, REGION = 6, END = 8, UPDATE = 9 };
enum { RECORDS = 4194304, ROWS = 65536, SEGMENTS = 65536, LANES = 64, DEPTH = 4, HELD = 8, MUTEXES = 65536 };
enum { HEADER = 8, BLOCK = 2730 }; // bytes of a log's header, and records of a task's block

// What is told at the end: first why a folder has no index, and last what leaves it one, although pairs may be false.
#define WHYS(WHY) \
    WHY(TASKS, "explicit tasks: the format has none") \
    WHY(LEAGUE, "teams: the format has no leagues") \
    WHY(CANCELLED, "a construct was cancelled: its lanes don't pass the same barriers") \
    WHY(WIDE, "a region of more than 64 lanes") \
    WHY(DEEP, "regions nested more than 4 deep") \
    WHY(MANY_ROWS, "more than 65,536 tasks in a folder, too many of them between two barriers of the outermost team") \
    WHY(MANY_SEGMENTS, "more than 65,536 barrier intervals with an access in a folder, too many of them between two barriers of the outermost team") \
    WHY(LONG, "a lane has too many different accesses, or locks of mutexes, barriers and regions, between two barriers of the outermost team: a log" \
              " holds 4,194,304 records. Put a barrier into the loop, or give it fewer elements or more lanes") \
    WHY(FILES, "a file couldn't be written") \
    WHY(MANY_MUTEXES, "more than 8 mutexes held at once, or more than 61,440 in a region of the root") \
    WHY(THREADS, "a thread that isn't OpenMP's made accesses while a region ran, or forked one") \
    WHY(HANDLER, "a signal's handler ran in a lane: its accesses aren't recorded") \
    WHY(WITHIN, "the program ended within a region") \
    WHY(STACKS, "too many lanes of nested teams, or stacks of more than 64 MB") \
    WHY(FREED, "too much memory was freed between two barriers of the outermost team (SWORDREC_HOLD)") \
    WHY(LINES, "code whose line isn't known: compile all of it with recorder/swordcc (-g), and leave it uncompressed") \
    WHY(SKIPPED, "accesses that the compiler doesn't instrument, told when it compiled") \
    WHY(UNSEALED, "8 folders have no index: after these nothing was recorded") \
    WHY(MEMORY, "out of memory") \
    WHY(LOCKED_FORK, "a lane forked a team while it held a mutex: that the team's lanes have it isn't in the logs, so their pairs may be false") \
    WHY(DOACROSS, "order by depend(sink) or doacross isn't in the format, so pairs of such loops may be false")
#define ONE_WHY(name, text) WHY_##name,
enum { WHYS(ONE_WHY) WHYS_COUNT };
#undef ONE_WHY

// A record as a log has it, high byte first.
typedef struct {
    uint64_t head, address, value;
} Record;

typedef struct Part Part;
typedef struct Run Run;
typedef struct Team Team;
typedef struct Task Task;

// What the index needs of a task.
typedef struct {
    uint32_t records, regions;
    size_t room;
    Part **region;
} Node;

// A region as a folder has it: a team's whole work or, of a team of the root, what lies between two barriers at which it was cut.
struct Part {
    Run *run;
    Part *next; // where the team goes on after the cut
    uint32_t number, line;
    unsigned span;
    Node lane[];
};

// A place in the table of what was logged: 64 neighbours (bytes, or elements of 2, 4 or 8) as one line accesses them in one interval, with one size
// and set of mutexes. A bit stands for each; those of `writes` are in `any`, too.
typedef struct {
    uint64_t what, when, any, writes;
} Seen;

enum { SET_BITS = 15, SEEN = 2 << SET_BITS }; // of a thread's table of them: sets of two, the last used one first

// A set of mutexes under which something was accessed in this interval.
typedef struct {
    uint64_t epoch;
    unsigned count;
    uint16_t mutex[HELD];
} Set;

// A mutex that is held, and how often its lane acquired it.
typedef struct {
    uint16_t mutex, times;
    uint32_t line;
} Hold;

enum { SETS = 8, HOLDS = 64 };
enum { NEW_SEGMENT = 1, NEW_LOCKS = 2 };

// One lane of a team while it runs. Only its thread touches it.
struct Task {
    Record *at;         // where the next one goes
    Record *since;      // the first one after the last one that isn't an access
    Seen *seen;         // its thread's
    unsigned pending;   // what must be done before an access is logged
    uint64_t low, high; // the number of the interval and set, as the table has it: lower and upper bits
    uint32_t spread;    // and where in the table
    uint32_t written;   // records that left the block
    uint32_t barriers, barrier_line;
    Team *team;
    Part *part;
    Node *node;
    Task *outer, *next_free; // the lane that its thread was before; the next that can be used again
    unsigned depth, lane, sets, held, logged; // of `set`, `hold` and `in_log`
    bool pooled; // its thread's stack is named for it
    uint32_t step_region[DEPTH];
    uint16_t step_lane[DEPTH];
    Set set[SETS];
    Hold in_log[HELD], hold[HOLDS];
    struct {
        char header[HEADER];
        Record block[BLOCK];
    } log;
};

// Memory that is held back until nobody uses it any more.
typedef struct {
    void *at;
    size_t mapped; // 0: a block of malloc
    size_t bytes;  // that it still has
} Held;

// A thread that ran a lane. Only it touches what is here, but for what is atomic, and `held` while no region runs.
typedef struct Thread {
    struct Thread *next;
    Seen *seen;
    uint64_t epochs;
    Task *spare;
    Held *held;
    size_t held_count, held_room;
    atomic_uint name; // of its stack; 0 unless it is a lane from 1 on of a nested team
    _Atomic uint64_t low, high;
} Thread;

#pragma GCC visibility push(hidden)

extern __thread Task *cur;      // whose accesses are logged now; NULL: nobody's
extern __thread bool ours;      // the main thread, or one that was a lane: no thread of the program's own
extern __thread Thread *me;     // NULL before its first lane
extern atomic_uint regions_now; // teams of the root that run

#pragma GCC visibility pop

// The recorder is linked with --wrap, too, and mustn't come to its own wraps.
void __real_free(void *);
void *__real_realloc(void *, size_t);
void *__real_memcpy(void *, const void *, size_t);
void *__real_mmap(void *, size_t, int, int, int, off_t);
int __real_munmap(void *, size_t);
int __real_pthread_mutex_lock(pthread_mutex_t *);
int __real_pthread_mutex_unlock(pthread_mutex_t *);
#define free __real_free
#define realloc __real_realloc
#define memcpy __real_memcpy
#define mmap __real_mmap
#define munmap __real_munmap

#pragma GCC visibility push(hidden)

// Of all that more than one thread writes, but for atomics.
extern pthread_mutex_t gate;
static inline void close_gate(void) { __real_pthread_mutex_lock(&gate); }
static inline void open_gate(void) { __real_pthread_mutex_unlock(&gate); }

// recorder.c
#define say(format, ...) fprintf(stderr, "swordrec: " format "\n", ##__VA_ARGS__)
void tell_of(unsigned why);
void cannot(Task *t, unsigned why); // for the task's folder, or from now on if there is no task
bool lost_for_good(void);
uint64_t setting(const char *name, uint64_t least, uint64_t most, uint64_t otherwise);
void *grown(void *items, size_t *room, size_t count, size_t size); // with room for one more item; NULL: no memory, and they stay

// Of a call of the program, and where a tool asks the runtime for one more callback.
#define RA __builtin_return_address(0)
#define ASK(name) &&ask(ompt_callback_##name, (ompt_callback_t)on_##name) == ompt_set_always

// accesses.c
static inline uint64_t hash(uint64_t key) { return key * 0x9e3779b97f4a7c15ull; }
static inline Record record(uint64_t head, uint64_t address, uint64_t value)
{
    return (Record){__builtin_bswap64(head), __builtin_bswap64(address), __builtin_bswap64(value)};
}

// lines.c: a place is site << 32 | line, as a record has it
extern uint64_t text_low, text_length; // the return addresses of the program's own code
extern _Atomic uint64_t *places;       // by return address from text_low on; 0: not asked yet
extern atomic_ullong quick_length;     // how many of them may be used; 0 while stacks have names
void lines_start(void);
void lines_tell(void);
// Of code whose line isn't known: line 1. No access may have it, but a mutex, a fork or a barrier, whose line plays no part in races: now and then the
// runtime gives a place within itself.
enum { UNKNOWN = 1 };
uint64_t find_place(const void *return_address);
static inline uint32_t line_of(const void *return_address) { return return_address ? (uint32_t)find_place(return_address) : 1; }

// folder.c: logs, and what has them
bool folder_start(void);
void folder_end(bool within);
void fail_folder(const Part *part, unsigned why);
Part *part_at(Part **place, Team *team, unsigned span); // added where there is none; NULL: it can't be recorded, and that was told
bool part_is_big(const Task *t);                        // whether it is time to cut
void begin_log(Task *t, Part *part);
void end_log(Task *t);
static inline bool is_full(const Task *t) { return t->at == t->log.block + BLOCK; }
void flush(Task *t);                            // writes what is in the block, and empties it
void put_mark(Task *t, unsigned kind, uint32_t line, uint64_t address, uint64_t value); // what isn't an access
void open_segment(Task *t);

// mutexes.c
bool mutexes_start(void *set_callback);
void mutexes_forget(void);
void choose_epoch(Task *t);
void drop_locks(Task *t, unsigned to);
void log_locks(Task *t);

// teams.c
struct Team {
    Team *outer; // the one that its thread forked before and hasn't joined
    Task *above; // NULL: the root
    const void *return_address;
    uint32_t line;
    bool dead;    // its lanes aren't recorded
    bool counted; // in regions_now
    bool failed;  // a part of it can't be recorded; with the gate held
    Part *first;
    atomic_uint want[2]; // the barriers at which the team is cut
};
bool teams_start(void *look_up);
// What ThreadSanitizer can't see where the recorder is compiled with it (recorder/sanitize), since the runtime isn't.
#if __has_feature(thread_sanitizer)
void __tsan_acquire(void *);
void __tsan_release(void *);
static inline void happens_before(Team *team) { __tsan_release(team); }
static inline void happens_after(Team *team) { __tsan_acquire(team); }
#else
static inline void happens_before(Team *team) {}
static inline void happens_after(Team *team) {}
#endif

// reuse.c: memory that is used again
extern atomic_uint stack_names; // 0: no stack has a name
void reuse_start(void);
bool enter_thread(void);
void name_stack(void);
void unname_stack(void);
uint64_t named(uint64_t address);
void release_own(void);
void release_all(void);

#pragma GCC visibility pop

#endif
