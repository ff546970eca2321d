/* A runtime of tasks: workers and a thread that waits take tasks that are due from the window beneath, run their bodies, and end them.

   Locks: `lock` of the runtime. It is held across the proved calls on the window, which ask that one call at a time works on it, and
   across what realm_task_runtime.h lists below it. No other lock is taken within it, and it is not held while a body runs. Besides,
   each call enters the runtime in the table of handles, so one thread at a time inserts, waits or frees; a thread that waits has entered it
   until it returns. Without workers that alone is enough, and the lock is not taken.

   A task that is due is taken at once, by the thread that inserted it or ended the last one that it waited for, and stands in a ring. It
   counts as running from then on, which is as the proved calls have it: no task that runs conflicts with another. A body is run
   outside of the lock, and its end, and the taking of what is due then, are one critical section. So what a body did to memory is seen
   by each body of a task that depends on it, by the lock.

   Who parks: a thread that found the ring empty, spun for some microseconds and found it empty again, under the lock. Who wakes: a
   thread that puts tasks into the ring wakes as many as there are tasks that no searching thread will take, itself among these where it
   ended a task. One that is woken counts as searching from the moment at which it is chosen. So there are never more
   tasks in the ring than threads that search, but where none is parked: a thread that searches parks only at an empty ring, and who
   takes a task takes one off both, or ended one and is among those who search. The thread that waits is woken too where the last task
   ends. Signals are sent behind the lock; who sends them is a worker, which is joined before the runtime goes, or has entered it.

   What was lost in an earlier window is kept by piece, until a wait has told it. A task that is inserted later and accesses such a piece,
   so that it would depend on the lost task, goes into the window too, is never run, and ends there as faulted: so what
   depends on it is cancelled by the proved calls. Its state is told as cancelled. */
#define _GNU_SOURCE
#include "realm_task_runtime.h"
#include <stdlib.h>
#include <string.h>

/* How often a thread looks at the ring before it parks. */
enum { SPINS = 400 };

/* The bodies that a thread runs, the innermost first: those of one runtime may wait for another's. */
struct frame { uint64_t number; struct frame *outer; };
static _Thread_local struct frame *frames;

static int is_in_body(uint64_t number) {
    for (const struct frame *it = frames; it; it = it->outer)
        if (it->number == number) return 1;
    return 0;
}

uint32_t realm_enter_tasks(const struct realm_tasks *tasks, struct realm_entry **entry, struct realm_runtime **rt) {
    if (frames && is_in_body(__atomic_load_n(&tasks->at, __ATOMIC_SEQ_CST))) return REALM_MISUSE_IN_BODY;
    uint32_t status = realm_enter(&tasks->at, KIND_TASKS, entry);
    if (status == REALM_DID) *rt = (*entry)->held.at;
    return status;
}

/* Whom to signal once the lock is given back. */
struct signals { uint32_t workers; int waiter; };

static void unlock(struct realm_runtime *rt, struct signals *signals) {
    realm_unlock(rt);
    for (; signals->workers; signals->workers--) pthread_cond_signal(&rt->work);
    if (signals->waiter) pthread_cond_signal(&rt->idle);
    signals->waiter = 0;
}

static void tell_hint(struct realm_runtime *rt) {
    atomic_store_explicit(&rt->hint, 2 * rt->ready_count + (rt->ended == rt->count), memory_order_relaxed);
}

static void push(struct realm_runtime *rt, uint32_t task) {
    rt->ready[(rt->ready_first + rt->ready_count++) % REALM_WINDOW] = task;
    rt->running++;
}

/* The next task of the ring, which has one: the first, or under the guard that of the least number. */
static uint32_t pop(struct realm_runtime *rt) {
    uint32_t least = rt->ready_first;
    for (uint32_t i = 1; rt->guard && i < rt->ready_count; i++) {
        uint32_t at = (rt->ready_first + i) % REALM_WINDOW;
        if (rt->ready[at] < rt->ready[least]) least = at;
    }
    uint32_t task = rt->ready[least];
    rt->ready[least] = rt->ready[rt->ready_first];
    rt->ready_first = (rt->ready_first + 1) % REALM_WINDOW;
    rt->ready_count--;
    tell_hint(rt);
    return task;
}

/* Takes all that is due. What is cancelled ends by that; what is lost ends so. */
static void take_due(struct realm_runtime *rt) {
    uint32_t task = 0, is_cancelled = 0;
    while (proved_realm_window_take(&rt->window, &task, &is_cancelled) == REALM_WINDOW_DONE) {
        if (!is_cancelled && !rt->records[task].is_lost) {
            push(rt, task);
            continue;
        }
        if (!is_cancelled) proved_realm_window_end(&rt->window, task, 1);
        rt->ended++;
        rt->lost++;
        rt->stats.cancelled++;
    }
    tell_hint(rt);
}

/* Chooses whom to wake for the tasks of the ring, of which `own` are the calling thread's. */
static void wake(struct realm_runtime *rt, uint32_t own, struct signals *signals) {
    while (rt->ready_count > rt->searching + own && rt->parked) {
        rt->parked--;
        rt->searching++;
        rt->tokens++;
        rt->stats.wakes++;
        signals->workers++;
    }
    int has_more = rt->ready_count > rt->searching + own;
    if (!rt->is_waiter_parked || (!has_more && rt->ended < rt->count)) return;
    rt->is_waiter_parked = 0;
    rt->searching++;
    rt->stats.wakes += has_more;
    signals->waiter = 1;
}

/* Keeps a fault, where it is the first in the order of insertion. One that the guard found comes before those that bodies answered. */
static void note_fault(struct realm_runtime *rt, uint32_t status, const struct realm_task_fault *fault) {
    rt->lost++;
    rt->stats.faulted++;
    if (rt->fault_status > status || (rt->fault_status == status && rt->fault.task < fault->task)) return;
    rt->fault_status = status;
    rt->fault = *fault;
}

/* Runs the body of a task: DONE, or how it faulted. No lock is held. */
static uint32_t run_body(struct realm_runtime *rt, uint32_t task, struct realm_task_fault *fault) {
    const struct realm_record *record = &rt->records[task];
    struct frame frame = {rt->number, frames};
    int is_undeclared = 0;
    frames = &frame;
    uint32_t answer = rt->guard ? realm_guard_perform(rt, task, fault, &is_undeclared) : record->body(record->argument);
    frames = frame.outer;
    fault->answer = is_undeclared ? 0 : answer;
    if (is_undeclared) return REALM_TASKS_UNDECLARED;
    return answer ? REALM_TASKS_FAULTED : REALM_TASKS_DONE;
}

/* Runs a task that was popped, ends it, and takes what is due then. The lock is given back meanwhile. */
static void perform(struct realm_runtime *rt, uint32_t task, struct signals *signals) {
    struct realm_task_fault fault = {0};
    unlock(rt, signals);
    uint32_t status = run_body(rt, task, &fault);
    realm_lock(rt);
    fault.task = rt->base + task;
    proved_realm_window_end(&rt->window, task, status != REALM_TASKS_DONE);
    rt->running--;
    rt->ended++;
    if (status) note_fault(rt, status, &fault);
    else rt->stats.done++;
    take_due(rt);
    wake(rt, 1, signals);
}

static void pause_briefly(void) {
#if defined(__x86_64__) || defined(__i386__)
    __builtin_ia32_pause();
#elif defined(__aarch64__)
    __asm__ volatile("yield");
#endif
}

/* Looks for a while, without the lock, whether the hint is as great. */
static void spin(struct realm_runtime *rt, uint32_t hint, struct signals *signals) {
    unlock(rt, signals);
    for (int i = 0; i < SPINS && atomic_load_explicit(&rt->hint, memory_order_relaxed) < hint; i++) pause_briefly();
    realm_lock(rt);
}

/* Parks a worker until it is chosen. */
static void park(struct realm_runtime *rt) {
    rt->parked++;
    while (!rt->tokens && !rt->is_over) pthread_cond_wait(&rt->work, &rt->lock);
    if (rt->tokens) rt->tokens--;
}

/* One turn of a worker that finds the ring empty. It counts as searching, but while it is parked. */
static void search(struct realm_runtime *rt, struct signals *signals) {
    rt->searching++;
    spin(rt, 2, signals);
    if (!rt->ready_count && !rt->is_over) {
        rt->searching--;
        park(rt);
    }
    rt->searching--;
}

static void *work(void *of) {
    struct realm_runtime *rt = of;
    struct signals signals = {0, 0};
    realm_lock(rt);
    while (!rt->is_over) {
        if (rt->ready_count) perform(rt, pop(rt), &signals);
        else search(rt, &signals);
    }
    unlock(rt, &signals);
    return 0;
}

/* The thread that waits finds the ring empty: it looks a while, and parks until it is chosen or all has ended. */
static void wait_a_while(struct realm_runtime *rt, struct signals *signals) {
    rt->searching++;
    spin(rt, 1, signals);
    if (!rt->ready_count && rt->ended < rt->count) {
        rt->searching--;
        rt->is_waiter_parked = 1;
        while (rt->is_waiter_parked) pthread_cond_wait(&rt->idle, &rt->lock);
    }
    rt->searching--;
}

/* Performs tasks until all of the window have ended. FORGOTTEN where none can be found and some are left, which never should be. */
static uint32_t perform_all(struct realm_runtime *rt) {
    struct signals signals = {0, 0};
    uint32_t status = REALM_DID;
    realm_lock(rt);
    while (rt->ended < rt->count && status == REALM_DID) {
        if (rt->ready_count) {
            rt->stats.by_waits++;
            perform(rt, pop(rt), &signals);
        } else if (rt->running) {
            wait_a_while(rt, &signals);
        } else {
            status = REALM_MISUSE_FORGOTTEN;
        }
    }
    unlock(rt, &signals);
    return status;
}

/* How a task of the window ended or stands. */
static uint32_t state_of(struct realm_runtime *rt, uint32_t task, uint32_t *state) {
    uint32_t status = proved_realm_window_status(&rt->window, task, state);
    if (status == REALM_DID && *state == REALM_TASK_FAULTED && rt->records[task].is_lost) *state = REALM_TASK_CANCELLED;
    return status;
}

/* Marks the pieces of a lost task, for those that are inserted into later windows. */
static void mark_lost(struct realm_runtime *rt, const struct realm_record *record) {
    rt->has_lost = 1;
    for (uint32_t k = 0; k < record->count; k++) {
        const struct realm_piece *at = &record->pieces[k];
        for (uint32_t p = 0; p < at->count; p++) rt->data.lost[at->first + p] |= at->writes ? LOST_WRITE : LOST_READ;
    }
}

/* Keeps how the tasks of the window ended. All have. */
static void keep_states(struct realm_runtime *rt) {
    uint32_t state = REALM_TASK_DONE;
    for (uint32_t task = 0; task < rt->count; task++) {
        if (rt->lost && state_of(rt, task, &state) == REALM_DID && state != REALM_TASK_DONE) mark_lost(rt, &rt->records[task]);
        rt->kept[(rt->base + task) % REALM_KEPT_TASKS] = (uint8_t)state;
    }
}

/* Ends the window: performs what is left of it, and empties it. */
static uint32_t end_window(struct realm_runtime *rt) {
    int cancels;
    struct signals signals = {0, 0};
    if (!rt->count) return REALM_DID;
    /* (a thread that is cancelled in a body would leave the runtime entered for good) */
    pthread_setcancelstate(PTHREAD_CANCEL_DISABLE, &cancels);
    if (rt->guard) realm_guard_begin(rt);
    uint32_t status = perform_all(rt);
    if (rt->guard) realm_guard_end(rt);
    pthread_setcancelstate(cancels, &cancels);
    if (status) return status;
    realm_lock(rt);
    keep_states(rt);
    status = proved_realm_window_clear(&rt->window);
    if (status == REALM_DID) {
        rt->base += rt->count;
        rt->count = rt->ended = rt->lost = 0;
        rt->windows++;
        rt->stats.windows++;
    }
    tell_hint(rt);
    unlock(rt, &signals);
    return status;
}

/* Puts a use of a task into its record. */
static uint32_t put_use(struct realm_runtime *rt, struct realm_record *record, const struct realm_use *use) {
    struct realm_datum *datum;
    uint32_t status = realm_find_datum(rt, use->data, &datum);
    if (status) return status;
    if (use->mode > REALM_TASK_WRITE || (use->tile != REALM_WHOLE && use->tile >= datum->tiles)) return REALM_MISUSE_RANGE;
    if (!datum->has_pieces && (status = realm_give_pieces(rt, datum))) return status;
    int is_whole = use->tile == REALM_WHOLE;
    struct realm_piece piece = {datum->first + (is_whole ? 0 : use->tile), is_whole ? datum->tiles : 1, use->mode};
    for (uint32_t k = 0; k < record->count; k++)
        if (realm_pieces_meet(&record->pieces[k], &piece)) return REALM_MISUSE_MEET;
    record->pieces[record->count] = piece;
    record->places[record->count++] = use->data.place;
    return status;
}

/* Whether a task depends on one that was lost in an earlier window. */
static int is_lost(struct realm_runtime *rt, const struct realm_record *record) {
    for (uint32_t k = 0; k < record->count; k++) {
        const struct realm_piece *at = &record->pieces[k];
        for (uint32_t p = 0; p < at->count; p++)
            if (rt->data.lost[at->first + p] & (at->writes ? LOST_READ | LOST_WRITE : LOST_WRITE)) return 1;
    }
    return 0;
}

/* Puts a record at the end of the window. */
static uint32_t add_record(struct realm_runtime *rt, struct realm_record *record) {
    struct signals signals = {0, 0};
    uint32_t task = 0;
    realm_lock(rt);
    uint32_t status = proved_realm_window_insert(&rt->window, record->pieces, record->count, &task);
    if (status == REALM_DID) {
        rt->count++;
        rt->stats.inserted++;
        for (uint32_t k = 0; k < record->count; k++) rt->data.places[record->places[k]].named = rt->windows;
        take_due(rt);
        wake(rt, 0, &signals);
    }
    unlock(rt, &signals);
    return status;
}

/* What a task is inserted with, beside its uses: an argument, or values that are copied. */
struct given { realm_task_body body; void *argument; const void *values; size_t bytes; };

/* Inserts a task where all is well with it: the record is filled first, behind those of the window, and nothing else changes before that. */
static uint32_t insert(struct realm_runtime *rt, const struct given *given, const struct realm_use *uses, size_t count, uint64_t *task) {
    struct realm_record *record = &rt->records[rt->count < REALM_WINDOW ? rt->count : REALM_WINDOW];
    uint32_t status = REALM_DID;
    if (!given->body) return REALM_MISUSE_NO_BODY;
    if (count > REALM_MOST_USES || given->bytes > REALM_MOST_VALUES) return REALM_MISUSE_RANGE;
    record->count = 0;
    for (size_t k = 0; k < count && status == REALM_DID; k++) status = put_use(rt, record, &uses[k]);
    if (status == REALM_DID && rt->count >= rt->most) status = end_window(rt);
    if (status) return status;
    if (record != &rt->records[rt->count]) {
        rt->records[rt->count] = *record;
        record = &rt->records[rt->count];
    }
    record->body = given->body;
    record->argument = given->values ? record->values : given->argument;
    if (given->values) memcpy(record->values, given->values, given->bytes);
    record->is_lost = rt->has_lost && is_lost(rt, record);
    uint64_t number = rt->base + rt->count;
    status = add_record(rt, record);
    if (status == REALM_DID) *task = number;
    return status;
}

static uint32_t insert_given(struct realm_tasks *tasks, const struct given *given, const struct realm_use *uses, size_t count, uint64_t *task) {
    struct realm_entry *entry;
    struct realm_runtime *rt;
    uint32_t status = realm_enter_tasks(tasks, &entry, &rt);
    if (status) return status;
    status = insert(rt, given, uses, count, task);
    realm_leave(entry);
    return status;
}

uint32_t realm_insert(struct realm_tasks *tasks, realm_task_body body, void *argument, const struct realm_use *uses, size_t count, uint64_t *task) {
    struct given given = {body, argument, 0, 0};
    return insert_given(tasks, &given, uses, count, task);
}

uint32_t realm_insert_values(struct realm_tasks *tasks, realm_task_body body, const void *values, size_t bytes, const struct realm_use *uses,
                             size_t count, uint64_t *task) {
    struct given given = {body, 0, values, bytes};
    return insert_given(tasks, &given, uses, count, task);
}

/* Ends the window, and tells the first fault since the last wait. */
static uint32_t wait_for_all(struct realm_runtime *rt, struct realm_task_fault *fault) {
    uint32_t status = end_window(rt);
    if (status) return status;
    if (fault) *fault = rt->fault;
    if (rt->has_lost) memset(rt->data.lost, 0, rt->data.pieces);
    rt->has_lost = 0;
    status = rt->fault_status;
    rt->fault_status = REALM_TASKS_DONE;
    rt->fault = (struct realm_task_fault){0};
    return status;
}

uint32_t realm_wait(struct realm_tasks *tasks, struct realm_task_fault *fault) {
    struct realm_entry *entry;
    struct realm_runtime *rt;
    if (fault) *fault = (struct realm_task_fault){0};
    uint32_t status = realm_enter_tasks(tasks, &entry, &rt);
    if (status) return status;
    status = wait_for_all(rt, fault);
    realm_leave(entry);
    return status;
}

/* The state of any task, which is there. */
static uint32_t find_state(struct realm_runtime *rt, uint64_t task, uint32_t *state) {
    if (task >= rt->base + rt->count) return REALM_MISUSE_RANGE;
    if (task < rt->base) {
        *state = rt->base - task > REALM_KEPT_TASKS ? (uint32_t)REALM_TASK_LONG_OVER : rt->kept[task % REALM_KEPT_TASKS];
        return REALM_DID;
    }
    realm_lock(rt);
    uint32_t status = state_of(rt, (uint32_t)(task - rt->base), state);
    realm_unlock(rt);
    return status;
}

uint32_t realm_task_status(struct realm_tasks *tasks, uint64_t task, uint32_t *state) {
    struct realm_entry *entry;
    struct realm_runtime *rt;
    uint32_t status = realm_enter_tasks(tasks, &entry, &rt);
    if (status) return status;
    status = find_state(rt, task, state);
    realm_leave(entry);
    return status;
}

uint32_t realm_tasks_window(struct realm_tasks *tasks, uint32_t most) {
    struct realm_entry *entry;
    struct realm_runtime *rt;
    uint32_t status = realm_enter_tasks(tasks, &entry, &rt);
    if (status) return status;
    if (most && most <= REALM_WINDOW) rt->most = most;
    else status = REALM_MISUSE_RANGE;
    realm_leave(entry);
    return status;
}

uint32_t realm_tasks_stats(struct realm_tasks *tasks, struct realm_task_stats *stats) {
    struct realm_entry *entry;
    struct realm_runtime *rt;
    uint32_t status = realm_enter_tasks(tasks, &entry, &rt);
    if (status) return status;
    realm_lock(rt);
    *stats = rt->stats;
    realm_unlock(rt);
    stats->workers = rt->workers;
    stats->data = rt->data.live;
    stats->is_guarded = rt->guard != 0;
    realm_leave(entry);
    return status;
}

static void make_locks(struct realm_runtime *rt) {
    pthread_mutexattr_t how;
    pthread_mutexattr_init(&how);
#ifdef __GLIBC__
    /* (it is held for less than a microsecond, so who finds it taken spins before it sleeps) */
    pthread_mutexattr_settype(&how, PTHREAD_MUTEX_ADAPTIVE_NP);
#endif
    pthread_mutex_init(&rt->lock, &how);
    pthread_mutexattr_destroy(&how);
    pthread_cond_init(&rt->work, 0);
    pthread_cond_init(&rt->idle, 0);
}

/* Frees a runtime whose workers are gone, or were never there. */
static void free_runtime(struct realm_runtime *rt) {
    if (rt->window.at) proved_realm_window_free(&rt->window);
    if (rt->guard) realm_guard_free(rt);
    realm_free_data(rt);
    pthread_cond_destroy(&rt->idle);
    pthread_cond_destroy(&rt->work);
    pthread_mutex_destroy(&rt->lock);
    free(rt->kept);
    free(rt->records);
    free(rt);
}

/* A runtime without workers. NO_MEMORY. */
static uint32_t make_runtime(struct realm_runtime **out) {
    struct realm_runtime *rt = calloc(1, sizeof *rt);
    if (!rt) return REALM_NO_MEMORY_LEFT;
    make_locks(rt);
    rt->most = REALM_WINDOW;
    rt->windows = 1;
    /* (one record more, for a task that ends the window) */
    rt->records = calloc(REALM_WINDOW + 1, sizeof *rt->records);
    rt->kept = calloc(REALM_KEPT_TASKS, 1);
    uint32_t status = rt->records && rt->kept ? REALM_DID : REALM_NO_MEMORY_LEFT;
    if (status == REALM_DID) status = proved_realm_window_new(&rt->window);
    if (status == REALM_DID && realm_is_guard_asked_for()) status = realm_guard_make(rt);
    if (status) free_runtime(rt);
    else *out = rt;
    return status;
}

static void start_workers(struct realm_runtime *rt, uint32_t workers) {
    rt->is_shared = workers > 0;
    while (rt->workers < workers && !pthread_create(&rt->threads[rt->workers], 0, work, rt)) rt->workers++;
}

uint32_t realm_tasks_new(uint32_t workers, struct realm_tasks *tasks) {
    struct realm_entry *made;
    struct realm_runtime *rt = 0;
    if (workers > REALM_MOST_WORKERS) return REALM_MISUSE_RANGE;
    uint32_t status = realm_reserve(&tasks->at, &made);
    if (status) return status;
    status = make_runtime(&rt);
    if (status == REALM_DID) {
        made->held.at = rt;
        rt->number = realm_number(made);
        start_workers(rt, rt->guard ? 0 : workers);
    }
    return realm_fill(made, KIND_TASKS, status, &tasks->at);
}

static void end_workers(struct realm_runtime *rt) {
    int cancels;
    /* (a thread that is cancelled here would leave the runtime entered for good) */
    pthread_setcancelstate(PTHREAD_CANCEL_DISABLE, &cancels);
    realm_lock(rt);
    rt->is_over = 1;
    atomic_store_explicit(&rt->hint, 2, memory_order_relaxed);
    pthread_cond_broadcast(&rt->work);
    realm_unlock(rt);
    while (rt->workers) pthread_join(rt->threads[--rt->workers], 0);
    pthread_setcancelstate(cancels, &cancels);
}

uint32_t realm_tasks_free(struct realm_tasks *tasks) {
    struct realm_entry *entry;
    struct realm_runtime *rt;
    uint32_t status = realm_enter_tasks(tasks, &entry, &rt);
    if (status) return status;
    status = wait_for_all(rt, 0);
    end_workers(rt);
    free_runtime(rt);
    realm_release(entry, &tasks->at);
    return status;
}

/* The lines on what no other call answers. */
static const char *line_on(uint32_t status) {
    switch (status) {
    case REALM_TASKS_DONE: return "done";
    case REALM_TASKS_FAULTED: return "the body of a task answered a fault";
    case REALM_TASKS_UNDECLARED: return "a task made an access that it did not declare";
    case REALM_TASKS_NO_ROOM: return "the buffer is too short";
    case REALM_TASKS_NO_MEMORY: return "out of memory";
    case REALM_MISUSE_OTHER_RUN: return "the datum is of another runtime";
    case REALM_MISUSE_NO_BODY: return "the task has no body";
    case REALM_MISUSE_FORGOTTEN: return "tasks were overlooked, an error of the library's own";
    default: return 0;
    }
}

uint32_t realm_tasks_message(uint32_t status, uint8_t *out, size_t room, uint64_t *written) {
    const char *line = line_on(status);
    if (!line) return realm_run_message(status, out, room, written);
    size_t length = strlen(line);
    memcpy(out, line, length < room ? length : room);
    *written = length;
    return length <= room ? REALM_TASKS_DONE : REALM_TASKS_NO_ROOM;
}
