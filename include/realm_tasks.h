/* Tasks: functions of the program's own, inserted in the order of the program with what each accesses, and run side by side. A task
   waits for each one that was inserted before it and that it conflicts with: both access a common part of memory, and one of them
   writes it. So the memory is in the end what the same functions leave that are called one after another. Link librealm.a or librealm.so.

   What is proved and what is tested: which tasks wait for which, that a task is due only once each that it depends on has ended, that
   of tasks which run none conflicts with another, and which are cancelled are proved, of the calls beneath (the crates task_order and
   realm_tasks_c). All else on this page is tested, not proved: the loop of threads over those calls, handles, data and their bytes, what
   passes from one window to the next, misuse, and the guard. Nothing proves that a body keeps to its accesses. Run the
   program with REALM_GUARD=1 in its environment (below) to test it.

       struct realm_tasks tasks = REALM_NO_TASKS;
       struct realm_data a = REALM_NO_DATA, b = REALM_NO_DATA;
       realm_tasks_new(4, &tasks);
       realm_data_new(&tasks, first, sizeof first, &a);
       realm_data_new(&tasks, second, sizeof second, &b);
       struct realm_use uses[] = {realm_reads(a), realm_writes(b)};
       realm_insert(&tasks, body, argument, uses, 2, &number);
       if (realm_wait(&tasks, &fault)) ...
       realm_tasks_free(&tasks);

   Each call does what stands beside it, or answers a number of enum realm_misuse, with which nothing is changed and nothing lost:
   EMPTY, USED_UP and WRONG of the runtime's handle; IN_USE where another thread's call works on the runtime, since no call waits for
   another: one thread inserts at a time; IN_BODY where a body calls the runtime that runs it; and what stands beside the call. What
   nothing checks, and the program must keep:
   - pointers are not null but where this page says so, those of one call are apart, and nobody else uses what they lead to during it;
   - handles are of zero bytes at first, or as a call left them;
   - a body accesses no memory of data but by what its task declares, writes none that it only reads, and no two bodies that may run
     at once write other memory that both access. It returns, and leaves in no other way;
   - from the insertion of a task until a wait the program itself leaves alone what the task writes, and does not write what it
     reads; the memory of a datum stays where it is until the datum or its runtime is freed;
   - malloc, realloc and free are those of one allocator, and its blocks are aligned to 16 bytes. No call is made from a signal handler,
     nor in a child that a process with threads has forked. */
#ifndef REALM_TASKS_H
#define REALM_TASKS_H
#include "realm_misuse.h"
#include <stddef.h>
#include <stdint.h>
#ifdef __cplusplus
extern "C" {
#endif

/* A runtime, and a datum of it. Of zero bytes they are empty. A copy names the same thing, and where that is freed each copy says so. */
struct realm_tasks { uint64_t at; };
struct realm_data { uint64_t of; uint32_t place, generation; };
#define REALM_NO_TASKS {0}
#define REALM_NO_DATA {0, 0, 0}

/* The answers of the calls on tasks, beside those of enum realm_misuse. */
enum realm_tasks_status {
    REALM_TASKS_DONE = 0,
    REALM_TASKS_FAULTED = 1,      /* the body of a task answered a fault */
    REALM_TASKS_UNDECLARED = 2,   /* the guard found an access that a task did not declare */
    REALM_TASKS_NO_ROOM = 6,      /* out is too short: it is filled with the first part, and written is the length that it would need */
    REALM_TASKS_NO_MEMORY = 7     /* memory was refused, and nothing changed */
};

enum { REALM_MOST_WORKERS = 64, REALM_MOST_USES = 8, REALM_MOST_VALUES = 128, REALM_WINDOW = 1024, REALM_KEPT_TASKS = 65536 };

/* A runtime with so many worker threads, at most 64, which live as long as it does. A thread that waits performs tasks beside them; with
   0 workers it alone does, and no thread is started. Where the system starts fewer, those do all. DONE, NO_MEMORY. Misuse: RANGE where
   there are more; FILLED where the handle holds something. */
uint32_t realm_tasks_new(uint32_t workers, struct realm_tasks *tasks);

/* Memory of the program as a datum: so many bytes, at least 1, from the pointer on. No byte is in two data of one runtime. DONE,
   NO_MEMORY. Misuse: OVERLAP where a byte is in another datum, or in the pages of one of realm_data_alloc; RANGE where there are no bytes, or
   none so high; FILLED. */
uint32_t realm_data_new(struct realm_tasks *tasks, void *pointer, size_t bytes, struct realm_data *data);

/* The same with memory of the library's, of zero bytes at first, which fills whole pages, so that the guard finds undeclared reads there
   too. The memory is given back as the datum is freed. DONE, NO_MEMORY. Misuse: RANGE, FILLED. */
uint32_t realm_data_alloc(struct realm_tasks *tasks, size_t bytes, void **pointer, struct realm_data *data);

/* Cuts a datum into consecutive tiles of these sizes, which are at least 1 and together its bytes; tiles are numbered from 0. Tasks
   that access different tiles don't conflict; one that accesses the whole datum accesses each tile. A datum that is not cut has
   one tile. Tiles of before go. What a fault since the last wait cancels goes by bytes then: a new tile that has a byte of a tile of the
   faulted task counts as that tile, and so at each further cut before a wait. DONE, NO_MEMORY. Misuse: RANGE, also where the data of the
   runtime would have too many tiles; NEEDED where a task of the present window was inserted with the datum: wait first; EMPTY, USED_UP and
   OTHER_RUN of the datum. */
uint32_t realm_data_tiles(struct realm_tasks *tasks, struct realm_data data, uint32_t count, const size_t *sizes);

/* Frees a datum: its memory is the program's alone, or given back. The handle is empty then. A task that faulted with the datum cancels by
   it nothing that is inserted later, also where the memory is made a datum again. DONE. Misuse: NEEDED where a task that was
   inserted with it has not ended; EMPTY, USED_UP and OTHER_RUN of the datum. */
uint32_t realm_data_free(struct realm_tasks *tasks, struct realm_data *data);

/* What a task accesses: a datum, or one tile of it, to read, or to read and write it. */
enum realm_task_mode { REALM_TASK_READ = 0, REALM_TASK_WRITE = 1 };
#define REALM_WHOLE UINT32_MAX
struct realm_use {
    struct realm_data data;
    uint32_t tile;   /* its number, or REALM_WHOLE */
    uint32_t mode;
};

static inline struct realm_use realm_uses(struct realm_data data, uint32_t tile, uint32_t mode) {
    struct realm_use use;
    use.data = data;
    use.tile = tile;
    use.mode = mode;
    return use;
}

static inline struct realm_use realm_reads(struct realm_data data) { return realm_uses(data, REALM_WHOLE, REALM_TASK_READ); }
static inline struct realm_use realm_writes(struct realm_data data) { return realm_uses(data, REALM_WHOLE, REALM_TASK_WRITE); }
static inline struct realm_use realm_reads_tile(struct realm_data data, uint32_t tile) { return realm_uses(data, tile, REALM_TASK_READ); }
static inline struct realm_use realm_writes_tile(struct realm_data data, uint32_t tile) { return realm_uses(data, tile, REALM_TASK_WRITE); }

/* A body answers 0, or a fault, which is any other number. */
typedef uint32_t (*realm_task_body)(void *argument);

/* Inserts a task behind all that were inserted before: a body, what it is called with, and what it accesses, at most 8. Workers may begin
   it at once; without workers it is performed by a wait. The argument, which may be null, is there until the task has ended; the uses
   need not be, and may be null where there are none. DONE with the number of the task, from 0 in the order of insertion; NO_MEMORY, and
   then the task is not inserted.
   Tasks are kept by windows: a wait ends one, and so does an insertion once it has so many tasks as realm_tasks_window says. That
   insertion first performs all that was inserted, as a wait does, but tells no fault. No result depends on where windows end.
   Should the library overlook tasks, an error of its own, a wait and such an insertion answer FORGOTTEN, and the window stays.
   Misuse: RANGE where there are more uses than 8, a tile is none of its datum, or a mode is none; EMPTY, USED_UP and OTHER_RUN of a
   datum; MEET where two uses of the task are of one datum, but for different tiles; NO_BODY where body is null. */
uint32_t realm_insert(struct realm_tasks *tasks, realm_task_body body, void *argument, const struct realm_use *uses, size_t count, uint64_t *task);

/* The same with a copy of the bytes at values, at most 128, which the body is called with: they need not be there any longer. The copy is
   aligned to 16 bytes, and is the task's alone. Misuse: RANGE also where there are more bytes. */
uint32_t realm_insert_values(struct realm_tasks *tasks, realm_task_body body, const void *values, size_t bytes, const struct realm_use *uses,
                             size_t count, uint64_t *task);

/* What a wait tells. What its answer does not speak of is 0. */
struct realm_task_fault {
    uint64_t task;            /* the number of the task */
    uint32_t answer;          /* FAULTED: what its body answered */
    uint32_t declared;        /* UNDECLARED: 1 where the task declared to read that byte, 0 where it declared nothing of it */
    uint32_t written;         /* UNDECLARED: 1 where the byte was written, 0 where it was read, or where it isn't known which */
    uint64_t datum;           /* UNDECLARED: which datum, from 0 in the order in which the runtime's data were made */
    const void *pointer;      /* UNDECLARED: where the datum begins */
    uint64_t byte;            /* UNDECLARED: the byte, from 0 in the datum; of more than one the first that was found */
};

/* Performs tasks, beside the workers, until all that were inserted have ended. A task whose body answers a fault cancels each that depends
   on it, and those cancel what depends on them: their bodies are not run. The others are performed.
   DONE where no task faulted since the last wait; UNDECLARED where the guard found an access, with the first task that made one in the
   order of insertion; else FAULTED with the first task whose body faulted. fault may be null. Then nothing that was inserted before cancels
   what is inserted later: the program may read its data, mend them, and go on. */
uint32_t realm_wait(struct realm_tasks *tasks, struct realm_task_fault *fault);

/* How a task stands. RUNNING: it runs, or is about to. LONG_OVER: it has ended, and how is kept no more: that is kept of the last 65,536
   tasks of earlier windows. */
enum realm_task_state {
    REALM_TASK_WAITING = 0, REALM_TASK_RUNNING = 1, REALM_TASK_DONE = 2, REALM_TASK_FAULTED = 3, REALM_TASK_CANCELLED = 4, REALM_TASK_LONG_OVER = 5
};

/* DONE. Misuse: RANGE where no task has this number. */
uint32_t realm_task_status(struct realm_tasks *tasks, uint64_t task, uint32_t *state);

/* How many tasks a window has at most, 1 to 1,024, which is what it is at first. It counts from the next insertion on. DONE. Misuse: RANGE. */
uint32_t realm_tasks_window(struct realm_tasks *tasks, uint32_t most);

/* What a runtime has done so far. */
struct realm_task_stats {
    uint64_t inserted, done, faulted, cancelled;   /* tasks; the last three are those that have ended */
    uint64_t windows;       /* that have ended */
    uint64_t by_waits;      /* of the tasks that were performed those by threads that waited, not by workers */
    uint64_t wakes;         /* how often a thread that slept was woken for a task */
    uint32_t workers;       /* threads that were started */
    uint32_t data;          /* that are not freed */
    uint32_t is_guarded;    /* 1 where the guard is on */
};

/* DONE. */
uint32_t realm_tasks_stats(struct realm_tasks *tasks, struct realm_task_stats *stats);

/* The tasks of the present window as the text of a graph of format 3, for `realm check`, `timeline` and `realm-explain`: a call k0, k1.. for
   each task in the order of insertion, behind `on` those that it waits for, and a space for each datum, d0, d1.., and tile, d0_0, d0_1..
   that it accesses. The words of calls, body0, body1.., are those of different bodies. Nothing changes. DONE, NO_ROOM, NO_MEMORY. */
uint32_t realm_tasks_graph(struct realm_tasks *tasks, uint8_t *out, size_t room, uint64_t *written);

/* Waits as realm_wait does, ends the workers, and frees the runtime with its data; the handle is empty then. The answer is that of the
   wait. */
uint32_t realm_tasks_free(struct realm_tasks *tasks);

/* One line on an answer, without an end of line. DONE, NO_ROOM. */
uint32_t realm_tasks_message(uint32_t status, uint8_t *out, size_t room, uint64_t *written);

/* The guard. A runtime that is made where the environment has REALM_GUARD=1 tests that bodies keep to their accesses. It starts no
   worker: waits, and insertions into a full window, perform the tasks one at a time, in the order of insertion.
   - The memory of all data but what the task writes is compared before and after each task, byte by byte.
   - A page that one datum or tile fills is protected while a task runs that does not declare it, and against writing while one runs
     that only reads it. So an access there is found as it happens, whether it reads or writes, and whether or not it changes a byte.
     Where such pages make more than 8,192 separate ranges, the first of them are protected.
   The first undeclared access of a task to a datum is told on standard error with the task, the datum, the byte and what was
   declared. The task counts as faulted, and realm_wait answers UNDECLARED. No fault is told of a program that keeps to its accesses.
   What the guard can't find: reads outside of protected pages; writing outside of them that leaves what was there; an access to them by
   the system, which answers EFAULT to a body that has it read a file there; what an undeclared access to memory does that is no datum's.
   Under the guard no other thread of the program accesses data during waits and insertions, and data are in memory that may be read and
   written. The memory is needed twice. The guard handles SIGSEGV, which the thread that waits does not block meanwhile, and hands on what
   is not its own. */

#ifdef __cplusplus
}
#endif
#endif
