// Folders: the logs of tasks, and the index that makes a folder whole (docs/FORMATS.md).
//
// A folder goes on in a new one, DIR.1, DIR.2 and so on, between two regions of the root, when it is large or has failed: by the law
// `run_may_be_split` the pairs are the union of the folders'. A team of the root is cut at a barrier into two regions when a log or the folder
// grows long, by `region_may_be_cut`. A folder gets its index, under another name first, when its last lane has left it. One in which something
// wasn't recorded gets none.
//
// A log is opened for each block that is written, and closed again: so a program that closes or reuses descriptors does no harm.
//
// May assume: `gate` is held where it says so; a task is its thread's alone; a lane ends after all that were forked by it.
#include "recorder.h"
#include <sys/stat.h>

enum {
    CUT = RECORDS / 4,    // records of a lane, and
    FILLED = 61440,       // tasks or intervals of a folder, from which on a team of the root is cut and a folder goes on in a new one
    MANY_UNSEALED = 8,    // folders without an index, after which nothing more is recorded: they stay on the disk
    PATH = 4096,
};

// A folder that isn't whole yet.
struct Run {
    unsigned number, open; // open: lanes that haven't ended
    bool closed;           // the root goes on in another folder
    Node root;
    atomic_uint tasks, segments, why;
    atomic_ullong bytes;
};

static char folder[PATH - 256]; // absolute
static Run *now;
static uint64_t roll, ahead;
static unsigned folders, unsealed;

// ---- Files ----

static void folder_name(char *text, unsigned number, const char *end)
{
    if (number) snprintf(text, PATH, "%s.%u%s", folder, number, end);
    else snprintf(text, PATH, "%s%s", folder, end);
}

static void log_name(char *text, const Run *run, const Task *t)
{
    folder_name(text, run->number, "/t");
    for (unsigned d = 0; t && d < t->depth; d++) {
        size_t n = strlen(text);
        snprintf(text + n, PATH - n, "-%u.%u", t->step_region[d], t->step_lane[d]);
    }
    strcat(text, ".swl");
}

// Whether all that was put into the file is there.
static bool is_written(FILE *file)
{
    bool failed = ferror(file);
    return !fclose(file) && !failed;
}

// Adds to a log, or makes it new.
static bool write_log(const char *name, bool new, const void *bytes, size_t count)
{
    FILE *file = fopen(name, new ? "we" : "ae");
    if (!file) return false;
    setbuf(file, NULL);
    fwrite(bytes, count, 1, file);
    return is_written(file);
}

static uint32_t in_block(const Task *t) { return t->at - t->log.block; }

// A folder that won't be whole is written no further.
void flush(Task *t)
{
    char name[PATH];
    int error = errno;
    Run *run = t->part->run;
    const char *from = t->written ? (char *)t->log.block : (char *)&t->log;
    size_t bytes = (char *)t->at - from;
    if (t->written + in_block(t) > RECORDS) cannot(t, WHY_LONG);
    log_name(name, run, t);
    if (!atomic_load(&run->why) && !write_log(name, !t->written, from, bytes)) cannot(t, WHY_FILES);
    atomic_fetch_add_explicit(&run->bytes, bytes, memory_order_relaxed);
    t->written += in_block(t);
    t->at = t->since = t->log.block;
    errno = error;
}

void put_mark(Task *t, unsigned kind, uint32_t line, uint64_t address, uint64_t value)
{
    if (is_full(t)) flush(t);
    *t->at++ = record((uint64_t)kind << 56 | line, address, value);
    t->since = t->at;
}

void open_segment(Task *t)
{
    if (atomic_fetch_add_explicit(&t->part->run->segments, 1, memory_order_relaxed) >= SEGMENTS) cannot(t, WHY_MANY_SEGMENTS);
}

// ---- Whole folders ----

static void free_node(Node *node)
{
    for (uint32_t r = 0; r < node->regions; r++) {
        for (unsigned l = 0; l < node->region[r]->span; l++) free_node(&node->region[r]->lane[l]);
        free(node->region[r]);
    }
    free(node->region);
}

// Faults of the file are seen when it is closed.
static void put_row(FILE *file, const Node *node, unsigned depth, uint64_t step[])
{
    uint64_t row[6] = {__builtin_bswap64((uint64_t)depth << 32)};
    for (unsigned d = 0; d < depth; d++) row[1 + d] = __builtin_bswap64(step[d]);
    row[5] = __builtin_bswap64(node->records);
    fwrite(row, sizeof row, 1, file);
    for (uint32_t r = 0; r < node->regions; r++)
        for (unsigned l = 0; l < node->region[r]->span; l++) {
            step[depth] = (uint64_t)r << 32 | (uint64_t)l << 16 | node->region[r]->span;
            put_row(file, &node->region[r]->lane[l], depth + 1, step);
        }
}

static void put_record(FILE *file, unsigned kind, uint32_t line, uint64_t value)
{
    Record last = record((uint64_t)kind << 56 | line, 0, value);
    fwrite(&last, sizeof last, 1, file);
}

static bool write_root(Run *run)
{
    char name[PATH];
    log_name(name, run, NULL);
    FILE *file = fopen(name, "we");
    if (!file) return false;
    fputs("SWLOG002", file);
    for (uint32_t r = 0; r < run->root.regions; r++) put_record(file, REGION, run->root.region[r]->line, run->root.region[r]->span);
    put_record(file, END, 1, 0);
    run->root.records = run->root.regions + 1;
    return is_written(file);
}

static bool write_index(Run *run)
{
    char name[PATH], last[PATH];
    uint64_t step[DEPTH + 1];
    folder_name(name, run->number, "/index.part");
    folder_name(last, run->number, "/index.swi");
    FILE *file = fopen(name, "we");
    if (!file) return false;
    fputs("SWIDX002", file);
    put_row(file, &run->root, 0, step);
    return is_written(file) && !rename(name, last);
}

// The run's end, with the gate held.
static void seal(Run *run)
{
    bool good = !lost_for_good() && !atomic_load(&run->why);
    if (good && !(write_root(run) && write_index(run))) {
        cannot(NULL, WHY_FILES);
        good = false;
    }
    if (!good && ++unsealed == MANY_UNSEALED) cannot(NULL, WHY_UNSEALED);
    free_node(&run->root);
    free(run);
}

static bool has_index(unsigned number)
{
    char name[PATH];
    folder_name(name, number, "/index.swi");
    return access(name, F_OK) == 0;
}

static unsigned count_whole(void)
{
    unsigned whole = 0;
    for (unsigned i = 0; i < folders; i++) whole += has_index(i);
    return whole;
}

// Waits while so many folders as may be ahead are still there: who checks them drops them.
static void wait_for_room(void)
{
    for (unsigned turn = 0; ahead && count_whole() >= ahead; turn++) {
        if (turn == 500) say("waits until one of %u folders is checked and gone (SWORDREC_AHEAD)", (unsigned)ahead);
        usleep(20000); // if it is woken earlier, it looks earlier
    }
}

// Begins a folder. False: it can't be; that is told.
static bool new_run(void)
{
    char name[PATH];
    if (lost_for_good()) return false;
    wait_for_room();
    Run *run = calloc(1, sizeof *run);
    if (!run) {
        cannot(NULL, WHY_MEMORY);
        return false;
    }
    run->number = folders;
    atomic_store(&run->tasks, 1);
    folder_name(name, run->number, "");
    int error = mkdir(name, 0777) ? errno : 0;
    // The first one may be there, if it isn't whole.
    if (error && (error != EEXIST || run->number || has_index(0))) {
        cannot(NULL, WHY_FILES);
        say("%s: %s", name, error == EEXIST ? "it is there already and is left alone" : strerror(error));
        free(run);
        return false;
    }
    folders++;
    now = run;
    return true;
}

static bool is_large(const Run *run)
{
    return atomic_load_explicit(&run->tasks, memory_order_relaxed) > FILLED || atomic_load_explicit(&run->segments, memory_order_relaxed) > FILLED ||
           atomic_load_explicit(&run->bytes, memory_order_relaxed) > roll;
}

bool part_is_big(const Task *t) { return t->depth == 1 && (t->written + in_block(t) > CUT || is_large(t->part->run)); }

static bool leave_run(void)
{
    Run *old = now;
    now = NULL;
    bool begun = new_run();
    old->closed = true;
    if (!old->open) seal(old);
    return begun;
}

// Adds a region to a task's, or to the root's. With the gate held.
static Part *add_part(const Team *team, unsigned span)
{
    Task *above = team->above;
    if (!above && !now) return NULL;
    if (!above && (is_large(now) || atomic_load(&now->why)) && !leave_run()) return NULL;
    Run *run = above ? above->part->run : now;
    Node *node = above ? above->node : &run->root;
    Part *part = calloc(1, sizeof *part + span * sizeof *part->lane), **regions = grown(node->region, &node->room, node->regions, sizeof part);
    if (regions) node->region = regions;
    if (!part || !regions) {
        free(part);
        cannot(above, WHY_MEMORY);
        return NULL;
    }
    *part = (Part){.run = run, .number = node->regions, .line = team->line, .span = span};
    // Under the root there is always room: a folder that is so full goes on in a new one.
    if (atomic_fetch_add(&run->tasks, span) + span > ROWS) cannot(above, WHY_MANY_ROWS);
    run->open += span;
    node->region[node->regions++] = part;
    return part;
}

void fail_folder(const Part *part, unsigned why) { atomic_fetch_or_explicit(&part->run->why, 1u << why, memory_order_relaxed); }

// The lanes of a team come in any order, and the first of them adds its region.
Part *part_at(Part **place, Team *team, unsigned span)
{
    close_gate();
    if (!*place && !team->failed) team->failed = !(*place = add_part(team, span));
    Part *part = *place;
    open_gate();
    return part;
}

void begin_log(Task *t, Part *part)
{
    t->part = part;
    t->node = &part->lane[t->lane];
    t->step_region[t->depth - 1] = part->number;
    t->written = 0;
    memcpy(t->log.header, "SWLOG002", HEADER);
    t->at = t->since = t->log.block;
}

// After its End.
void end_log(Task *t)
{
    Run *run = t->part->run;
    flush(t);
    t->node->records = t->written;
    close_gate();
    if (!--run->open && run->closed) seal(run);
    t->part = NULL;
    open_gate();
}

// ---- Start and end ----

// False: nothing can be recorded, and why was told.
bool folder_start(void)
{
    const char *asked = getenv("SWORDREC_DIR");
    char name[PATH], here[PATH] = "";
    if (!asked || !*asked) asked = "swordlogs";
    if (asked[0] != '/' && !getcwd(here, sizeof here)) {
        say("the directory that it is in: %s", strerror(errno));
        return false;
    }
    int n = snprintf(folder, sizeof folder, "%s%s%s", here, here[0] ? "/" : "", asked);
    if (n < 0 || (size_t)n >= sizeof folder) {
        say("%s: %s", asked, strerror(ENAMETOOLONG));
        return false;
    }
    roll = setting("SWORDREC_ROLL", 0, ~0ull, ~0ull);
    ahead = setting("SWORDREC_AHEAD", 0, 1000, 0);
    folder_name(name, 0, ".end");
    if (unlink(name) && errno != ENOENT) {
        say("%s: %s", name, strerror(errno));
        return false;
    }
    return new_run();
}

// Seals what is left, tells, and leaves DIR.end for who waits for the run's end.
void folder_end(bool within)
{
    char name[PATH];
    close_gate();
    Run *last = now;
    now = NULL;
    if (within) unsealed += last != NULL; // its lanes may still run
    else if (last) seal(last);
    if (unsealed) say("%u of %u folders aren't recorded whole and have no index", unsealed, folders);
    if (folders > 1 && !ahead) say("%u folders, to be checked one by one: %s, and from %s.1 on", folders, folder, folder);
    folder_name(name, 0, ".end");
    FILE *file = fopen(name, "we");
    if (file) fprintf(file, "folders %u\n", folders);
    if (!file || !is_written(file)) say("%s can't be written: %s", name, strerror(errno));
    open_gate();
}
