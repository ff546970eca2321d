/* A runtime of tasks, which the sources realm_tasks.c, realm_task_data.c, realm_task_guard.c and realm_task_graph.c share. Inside of
   the library alone. */
#ifndef REALM_TASK_RUNTIME_H
#define REALM_TASK_RUNTIME_H
#include "proved_calls.h"
#include "realm_tasks.h"
#include <pthread.h>

/* A place for a datum, which one after another has; a generation of it is one datum. */
struct realm_datum {
    uint8_t *pointer;
    size_t bytes;
    size_t *ends;               /* where each tile ends, from the pointer on; null where there is one tile */
    uint32_t tiles;
    uint32_t first;             /* the number of its first piece; a tile is a piece */
    int has_pieces;             /* they are given to it as a task first names it */
    uint64_t named;             /* the window in which a task last named it, 0 where none did */
    uint64_t number;            /* of all data of the runtime */
    uint32_t generation;
    int is_live;
    size_t mapped;              /* the bytes of its pages, where the library gave the memory; else 0 */
    uint8_t *shadow;            /* under the guard: what it held when it was last looked at, and behind it two marks for each tile */
    uint64_t told;              /* under the guard: one more than the number of the last task of which a fault was told */
};

/* Pieces that are free again. Those that a window has named are given out once it has ended. */
struct realm_range { uint32_t first, count; uint64_t named; };

/* The data of a runtime. Who has entered the runtime has them alone. */
struct realm_data_table {
    struct realm_datum *places;
    uint32_t *order;            /* live places by their pointers */
    struct realm_range *free;   /* no two of them adjoin, so there are no more than places and two */
    uint32_t count, room, live, free_count;
    uint8_t *lost;              /* by piece, from earlier windows since the last wait: LOST_READ, LOST_WRITE */
    uint32_t pieces, lost_room;
    uint64_t made;
};
enum { LOST_READ = 1, LOST_WRITE = 2 };

/* A task of the present window. */
struct realm_record {
    _Alignas(16) uint8_t values[REALM_MOST_VALUES];
    realm_task_body body;
    void *argument;
    uint32_t count;
    uint32_t is_lost;           /* it depends on a lost task of an earlier window */
    struct realm_piece pieces[REALM_MOST_USES];
    uint32_t places[REALM_MOST_USES];
};

struct realm_runtime {
    /* Who has entered the runtime has these alone. Workers read number and records of tasks that are due. */
    uint64_t number;            /* of its handle */
    struct realm_data_table data;
    struct realm_record *records;
    uint8_t *kept;              /* how tasks of earlier windows ended, by their numbers modulo REALM_KEPT_TASKS */
    uint64_t base;              /* the number of the window's first task */
    uint64_t windows;           /* which window it is, from 1 */
    uint32_t most;              /* tasks of a window */
    int has_lost;               /* a task of an earlier window was lost since the last wait */
    uint32_t workers;
    int is_shared;              /* there are workers, or were to be */
    pthread_t threads[REALM_MOST_WORKERS];
    struct realm_guard *guard;

    /* Under `lock`. */
    pthread_mutex_t lock;
    pthread_cond_t work, idle;  /* for workers, and for the thread that waits */
    struct proved_held window;
    uint32_t count, ended;      /* tasks of the window, and those that have ended */
    uint32_t running;
    uint32_t ready[REALM_WINDOW], ready_first, ready_count;   /* tasks that were taken and that no thread performs yet */
    uint32_t searching, parked, tokens;
    int is_waiter_parked, is_over;
    uint32_t lost;              /* tasks of the window that faulted or were cancelled */
    uint32_t fault_status;      /* of the first fault since the last wait */
    struct realm_task_fault fault;
    struct realm_task_stats stats;

    /* Read without the lock by threads that spin: twice how many tasks are in the ring, and one more where all of the window have ended. */
    _Atomic uint32_t hint;
};

#pragma GCC visibility push(hidden)

/* Enters a runtime. Misuse: IN_BODY where the thread runs a body of it, and what realm_enter answers. */
uint32_t realm_enter_tasks(const struct realm_tasks *tasks, struct realm_entry **entry, struct realm_runtime **runtime);

/* The datum of a handle. Misuse: EMPTY, OTHER_RUN, USED_UP. */
uint32_t realm_find_datum(struct realm_runtime *runtime, struct realm_data data, struct realm_datum **datum);

/* Sees to it that a datum has pieces. DONE, NO_MEMORY, RANGE. */
uint32_t realm_give_pieces(struct realm_runtime *runtime, struct realm_datum *datum);

void realm_free_data(struct realm_runtime *runtime);

static inline void realm_lock(struct realm_runtime *runtime) {
    if (runtime->is_shared) pthread_mutex_lock(&runtime->lock);
}

static inline void realm_unlock(struct realm_runtime *runtime) {
    if (runtime->is_shared) pthread_mutex_unlock(&runtime->lock);
}

/* How many bytes from the pointer of a datum on nothing else is in: its own, or those of its pages. */
static inline size_t realm_extent(const struct realm_datum *datum) { return datum->mapped ? datum->mapped : datum->bytes; }

/* Where tile k of a datum begins, from its pointer on; that of the one behind the last is its end. */
static inline size_t realm_tile_at(const struct realm_datum *datum, uint32_t k) {
    return k == 0 ? 0 : datum->ends ? datum->ends[k - 1] : datum->bytes;
}

/* Whether two accesses are of a common piece. */
static inline int realm_pieces_meet(const struct realm_piece *a, const struct realm_piece *b) {
    return a->first < b->first + b->count && b->first < a->first + a->count;
}

/* The guard. `make` and `watch` (a datum that is new) answer DONE or NO_MEMORY; `begin` and `end` stand around what is performed at once,
   and `perform` runs one body: what it answers. An undeclared access is then told in `fault`. */
int realm_is_guard_asked_for(void);
uint32_t realm_guard_make(struct realm_runtime *runtime);
uint32_t realm_guard_watch(struct realm_datum *datum);
void realm_guard_begin(struct realm_runtime *runtime);
uint32_t realm_guard_perform(struct realm_runtime *runtime, uint32_t task, struct realm_task_fault *fault, int *is_undeclared);
void realm_guard_end(struct realm_runtime *runtime);
void realm_guard_free(struct realm_runtime *runtime);

#pragma GCC visibility pop
#endif
