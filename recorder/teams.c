// Teams: what the OpenMP runtime tells of forks, lanes, barriers and joins (OMPT, OpenMP 5.2, section 19).
//
// A region of one lane isn't logged: its accesses are its parent's. Within a barrier nothing is logged, since only the runtime works there (a
// reduction's tree). A team of the root begins a new region at a barrier when a log or the folder has grown long: by `region_may_be_cut`, and with
// `locks_may_move` no mutex is held there in the log. The lanes agree on it, since each tells its wish before the barrier and looks at all wishes
// after it.
//
// May assume of libomp 14: a team's true number of lanes is known only when its lanes begin; its join is the barrier without a return address, or
// with the region's. What comes after it, of a lane or of the team, may come so late that the data it is given are another team's by then: so each
// thread keeps its own list of teams and of lanes, and looks only whether a task's data are its own lane's. All callbacks of a lane come from the
// lane's thread.
#include "recorder.h"
#include <omp-tools.h>

atomic_uint regions_now;
static __thread Team *team_now; // the innermost that this thread forked
static __thread Task *mine;     // the innermost lane that this thread is
static pthread_t main_thread;

// What the runtime keeps for an implicit task: its Task, one of these, or NULL: it is a part of its parent's, or has ended.
static char root, unrecorded;

static void *get(const ompt_data_t *data) { return data ? __atomic_load_n(&data->ptr, __ATOMIC_RELAXED) : NULL; }
static void set(ompt_data_t *data, void *to) { __atomic_store_n(&data->ptr, to, __ATOMIC_RELAXED); }

static Task *task_in(const ompt_data_t *data) { return mine && get(data) == mine ? mine : NULL; }

void begin_interval(Task *t)
{
    t->pending = NEW_SEGMENT | (t->held ? NEW_LOCKS : 0);
    t->sets = 0;
    choose_epoch(t);
}

static void end_segment(Task *t, unsigned kind, uint32_t line, uint64_t value)
{
    drop_locks(t, 0);
    t->pending = NEW_SEGMENT | (t->held ? NEW_LOCKS : 0);
    put_mark(t, kind, line, 0, value);
}

static Task *new_task(void)
{
    if (!enter_thread()) return NULL;
    Task *t = me->spare;
    if (t) me->spare = t->next_free;
    else if (!(t = malloc(sizeof *t))) return NULL;
    t->seen = me->seen;
    t->held = t->logged = 0;
    t->barriers = 0;
    return t;
}

// The lane's log has ended.
static void leave_lane(Task *t)
{
    if (t->pooled) unname_stack();
    mine = t->outer;
    t->next_free = me->spare;
    me->spare = t;
}

static void on_parallel_begin(ompt_data_t *data, const ompt_frame_t *frame, ompt_data_t *parallel, unsigned lanes, int flags, const void *ra)
{
    Task *above = cur;
    cur = NULL;
    Team *team = calloc(1, sizeof *team);
    if (!team) {
        say("out of memory");
        abort(); // without it the team's end would be taken for another's
    }
    team->outer = team_now;
    team->above = above;
    team->return_address = ra;
    team->line = line_of(ra);
    team->dead = !above && (lost_for_good() || get(data) == &unrecorded);
    if (flags & ompt_parallel_league) {
        cannot(above, WHY_LEAGUE);
        team->dead = true;
    } else if (!above && !team->dead && lanes > 1) {
        if (!pthread_equal(main_thread, pthread_self())) {
            cannot(NULL, WHY_THREADS);
            team->dead = true;
        } else {
            team->counted = true;
            atomic_fetch_add(&regions_now, 1);
        }
    }
    parallel->ptr = team;
    team_now = team;
    happens_before(team);
    cur = above;
}

static void begin_lane(Team *team, ompt_data_t *data, unsigned span, unsigned lane)
{
    Task *above = team->above;
    unsigned depth = above ? above->depth + 1 : 1;
    if (span > LANES || depth > DEPTH) {
        cannot(above, span > LANES ? WHY_WIDE : WHY_DEEP);
        return;
    }
    Part *part = part_at(&team->first, team, span);
    Task *t = part ? new_task() : NULL;
    if (!t) {
        if (part) cannot(NULL, WHY_MEMORY);
        return;
    }
    t->team = team;
    t->depth = depth;
    t->lane = lane;
    for (unsigned d = 0; d + 1 < depth; d++) {
        t->step_region[d] = above->step_region[d];
        t->step_lane[d] = above->step_lane[d];
    }
    t->step_lane[depth - 1] = lane;
    t->pooled = depth > 1 && lane > 0;
    if (t->pooled) name_stack();
    if (lane == 0 && above) {
        if (above->held) tell_of(WHY_LOCKED_FORK);
        end_segment(above, REGION, team->line, span);
    }
    begin_log(t, part);
    begin_interval(t);
    set(data, t);
    t->outer = mine;
    mine = cur = t;
}

static void on_implicit_task(ompt_scope_endpoint_t end, ompt_data_t *parallel, ompt_data_t *data, unsigned span, unsigned lane, int flags)
{
    if (end == ompt_scope_end) return; // a lane has ended at its join
    if (flags & ompt_task_initial) {
        const bool is_league = parallel && parallel->ptr;
        set(data, is_league ? &unrecorded : &root);
        return;
    }
    Team *team = parallel->ptr;
    happens_after(team);
    if (span == 1 && !team->dead) {
        set(data, NULL);
        return;
    }
    ours = true;
    cur = NULL;
    set(data, &unrecorded);
    if (!team->dead) begin_lane(team, data, span, lane);
}

static void on_parallel_end(ompt_data_t *parallel, ompt_data_t *data, int flags, const void *ra)
{
    Team *team = team_now;
    if (!team) return;
    team_now = team->outer;
    cur = NULL;
    happens_after(team);
    if (team->counted) {
        release_all();
        mutexes_forget();
        atomic_fetch_sub(&regions_now, 1);
    }
    cur = team->above;
    free(team);
}

// Passes a barrier. False: from here on the lane can't be recorded.
static bool pass(Task *t, uint32_t line)
{
    Team *team = t->team;
    if (atomic_load(&team->want[t->barriers & 1]) != t->barriers) {
        end_segment(t, BARRIER, line, 0);
        begin_interval(t);
        return true;
    }
    Part *next = part_at(&t->part->next, team, t->part->span);
    end_segment(t, END, line, 0);
    end_log(t);
    if (!next) return false;
    begin_log(t, next);
    begin_interval(t);
    return true;
}

static void on_sync_region(ompt_sync_region_t kind, ompt_scope_endpoint_t end, ompt_data_t *parallel, ompt_data_t *data, const void *ra)
{
    Task *t = task_in(data);
    if (!t || kind == ompt_sync_region_taskwait || kind == ompt_sync_region_taskgroup || kind == ompt_sync_region_reduction) return;
    cur = NULL;
    if (end == ompt_scope_begin) {
        const bool unnamed = kind == ompt_sync_region_barrier_implicit && (!ra || ra == t->team->return_address);
        if (unnamed || kind == ompt_sync_region_barrier_implicit_parallel) {
            set(data, NULL);
            end_segment(t, END, t->team->line, 0);
            end_log(t);
            happens_before(t->team);
            leave_lane(t);
            return;
        }
        t->barriers++;
        if (part_is_big(t)) atomic_store(&t->team->want[t->barriers & 1], t->barriers);
        t->barrier_line = line_of(ra);
        happens_before(t->team);
        return;
    }
    happens_after(t->team);
    if (t->depth == 1) release_own();
    if (pass(t, t->barrier_line)) {
        cur = t;
    } else {
        set(data, &unrecorded);
        leave_lane(t);
    }
}

static void on_task_create(ompt_data_t *task, const ompt_frame_t *frame, ompt_data_t *made, int flags, int dependences, const void *ra)
{
    if (flags & ompt_task_explicit && get(task) != &root) cannot(cur, WHY_TASKS);
}

static void on_cancel(ompt_data_t *data, int flags, const void *ra) { cannot(task_in(data), WHY_CANCELLED); }

static void on_dependences(ompt_data_t *data, const ompt_dependence_t *dependences, int count)
{
    for (int i = 0; i < count; i++)
        if (dependences[i].dependence_type == ompt_dependence_type_sink) tell_of(WHY_DOACROSS);
}

bool teams_start(void *look_up)
{
    ompt_set_callback_t ask = (ompt_set_callback_t)((ompt_function_lookup_t)look_up)("ompt_set_callback");
    main_thread = pthread_self();
    return ask ASK(parallel_begin) ASK(parallel_end) ASK(implicit_task) ASK(sync_region) ASK(task_create) ASK(cancel) ASK(dependences) &&
           mutexes_start((void *)ask);
}
