/* Each call on tasks, and each misuse of one. Usage: task_calls [few]; the status is 0 where all answer as their page says. With `few` what
   takes many tasks is left out. */
#include "realm_tasks.h"
#include <pthread.h>
#include <stdio.h>
#include <stdlib.h>
#include <string.h>
#include <time.h>

#define CHECK(it) do { if (!(it)) return printf("task_calls.c:%d: %s\n", __LINE__, #it), 1; } while (0)

static struct realm_tasks runtime;      /* that bodies call */
static uint8_t memory[64];
static uint32_t nothing(void *argument) { return (void)argument, 0; }
static uint32_t fault(void *argument) { return *(uint32_t *)argument; }

/* What a body is answered by the runtime that runs it, and by another one. */
struct answers { uint32_t all[9], other, outer; };

static uint32_t call_outer(void *argument) {
    struct answers *answers = argument;
    uint64_t task;
    answers->outer = realm_insert(&runtime, nothing, 0, 0, 0, &task);
    return 0;
}

static uint32_t call_it(void *argument) {
    struct answers *answers = argument;
    struct realm_tasks copy = runtime, other = REALM_NO_TASKS;
    struct realm_data data = REALM_NO_DATA;
    struct realm_task_stats stats;
    uint64_t task, written;
    uint32_t state;
    uint8_t out[8];
    answers->all[0] = realm_insert(&runtime, nothing, 0, 0, 0, &task);
    answers->all[1] = realm_wait(&copy, 0);
    answers->all[2] = realm_tasks_free(&copy);
    answers->all[3] = realm_data_new(&copy, out, sizeof out, &data);
    answers->all[4] = realm_task_status(&copy, 0, &state);
    answers->all[5] = realm_tasks_stats(&copy, &stats);
    answers->all[6] = realm_tasks_window(&copy, 1);
    answers->all[7] = realm_tasks_graph(&copy, out, sizeof out, &written);
    answers->all[8] = realm_data_tiles(&copy, data, 1, 0);
    answers->other = realm_tasks_new(0, &other) || realm_insert(&other, call_outer, answers, 0, 0, &task) || realm_wait(&other, 0) || realm_tasks_free(&other);
    return 0;
}

/* A body may use another runtime, and not its own: neither a worker's, nor that of the thread that waits. */
static int from_bodies(void) {
    struct answers answers;
    uint64_t task;
    for (uint32_t workers = 0; workers < 3; workers++) {
        CHECK(!realm_tasks_new(workers, &runtime));
        memset(&answers, 0, sizeof answers);
        CHECK(!realm_insert(&runtime, call_it, &answers, 0, 0, &task));
        CHECK(!realm_wait(&runtime, 0) && !answers.other && answers.outer == REALM_MISUSE_IN_BODY);
        for (size_t k = 0; k < sizeof answers.all / sizeof *answers.all; k++) CHECK(answers.all[k] == REALM_MISUSE_IN_BODY);
        CHECK(!realm_tasks_free(&runtime));
    }
    return 0;
}

/* Handles of runtimes: too many workers, filled, empty, freed, and of another kind. */
static int handles_of_runtimes(void) {
    struct realm_tasks tasks = REALM_NO_TASKS, copy;
    struct realm_task_stats stats;
    uint64_t task;
    CHECK(realm_tasks_new(65, &tasks) == REALM_MISUSE_RANGE && !tasks.at);
    CHECK(realm_wait(&tasks, 0) == REALM_MISUSE_EMPTY && realm_tasks_free(&tasks) == REALM_MISUSE_EMPTY);
    CHECK(!realm_tasks_new(64, &tasks) && realm_tasks_new(1, &tasks) == REALM_MISUSE_FILLED);
    CHECK(!realm_tasks_stats(&tasks, &stats) && stats.workers <= 64 && !stats.inserted);
    copy = tasks;
    CHECK(!realm_wait(&copy, 0) && !realm_tasks_free(&tasks) && !tasks.at);
    CHECK(realm_wait(&copy, 0) == REALM_MISUSE_USED_UP && realm_insert(&copy, nothing, 0, 0, 0, &task) == REALM_MISUSE_USED_UP);
    CHECK(realm_tasks_free(&copy) == REALM_MISUSE_USED_UP && realm_tasks_new(0, &copy) == 0 && !realm_tasks_free(&copy));
    copy.at = 0x123456789;
    CHECK(realm_wait(&copy, 0) == REALM_MISUSE_USED_UP);
    return 0;
}

/* Data: bytes, overlaps, tiles, and what is freed or of another runtime. */
static int handles_of_data(void) {
    struct realm_tasks tasks = REALM_NO_TASKS, other = REALM_NO_TASKS;
    struct realm_data a = REALM_NO_DATA, b = REALM_NO_DATA, none = REALM_NO_DATA, copy;
    size_t sizes[] = {8, 16, 8};
    uint64_t task;
    void *pages;
    CHECK(!realm_tasks_new(0, &tasks) && !realm_tasks_new(0, &other));
    CHECK(realm_data_new(&tasks, memory, 0, &a) == REALM_MISUSE_RANGE && realm_data_new(&tasks, memory, SIZE_MAX, &a) == REALM_MISUSE_RANGE);
    CHECK(realm_data_alloc(&tasks, 0, &pages, &a) == REALM_MISUSE_RANGE && realm_data_alloc(&tasks, SIZE_MAX, &pages, &a) == REALM_MISUSE_RANGE);
    CHECK(realm_data_alloc(&tasks, SIZE_MAX / 4, &pages, &a) == REALM_TASKS_NO_MEMORY && !a.of);
    CHECK(!realm_data_alloc(&tasks, 5, &pages, &a) && realm_data_new(&tasks, (uint8_t *)pages + 8, 1, &b) == REALM_MISUSE_OVERLAP && !realm_data_free(&tasks, &a));
    CHECK(!realm_data_new(&tasks, memory + 16, 32, &a) && realm_data_new(&tasks, memory, 8, &a) == REALM_MISUSE_FILLED);
    CHECK(realm_data_new(&other, memory, 8, &a) == REALM_MISUSE_FILLED);
    for (int from = 0; from < 64; from++)
        for (int bytes = 1; from + bytes <= 64; bytes++) {
            uint32_t status = realm_data_new(&tasks, memory + from, (size_t)bytes, &b);
            CHECK(status == (from < 48 && from + bytes > 16 ? REALM_MISUSE_OVERLAP : REALM_TASKS_DONE));
            if (!status) CHECK(!realm_data_free(&tasks, &b) && !b.of);
        }
    CHECK(!realm_data_new(&other, memory, 64, &b) && realm_data_free(&tasks, &b) == REALM_MISUSE_OTHER_RUN);
    CHECK(realm_data_tiles(&tasks, b, 3, sizes) == REALM_MISUSE_OTHER_RUN && realm_data_tiles(&tasks, none, 3, sizes) == REALM_MISUSE_EMPTY);
    CHECK(realm_data_tiles(&tasks, a, 0, sizes) == REALM_MISUSE_RANGE && realm_data_tiles(&tasks, a, 2, sizes) == REALM_MISUSE_RANGE);
    sizes[1] = 17;
    CHECK(realm_data_tiles(&tasks, a, 3, sizes) == REALM_MISUSE_RANGE);
    sizes[1] = 0;
    CHECK(realm_data_tiles(&tasks, a, 3, sizes) == REALM_MISUSE_RANGE);
    sizes[1] = 16;
    CHECK(!realm_data_tiles(&tasks, a, 3, sizes) && !realm_data_tiles(&tasks, a, 3, sizes));
    CHECK(realm_data_free(&tasks, &none) == REALM_MISUSE_EMPTY);
    struct realm_use use[] = {realm_reads(none)};
    CHECK(realm_insert(&tasks, nothing, 0, use, 1, &task) == REALM_MISUSE_EMPTY);
    use[0] = realm_reads(b);
    CHECK(realm_insert(&tasks, nothing, 0, use, 1, &task) == REALM_MISUSE_OTHER_RUN);
    copy = a;
    CHECK(!realm_data_free(&tasks, &a) && realm_data_free(&tasks, &copy) == REALM_MISUSE_USED_UP);
    use[0] = realm_reads(copy);
    CHECK(realm_insert(&tasks, nothing, 0, use, 1, &task) == REALM_MISUSE_USED_UP);
    CHECK(!realm_data_new(&tasks, memory, 64, &a) && a.place == copy.place && realm_data_free(&tasks, &copy) == REALM_MISUSE_USED_UP);
    copy.place = 1000;
    CHECK(realm_data_free(&tasks, &copy) == REALM_MISUSE_USED_UP);
    return realm_tasks_free(&tasks) || realm_tasks_free(&other);
}

/* Insertions that are refused leave the window as it was. */
static int insertions(void) {
    struct realm_tasks tasks = REALM_NO_TASKS;
    struct realm_data a = REALM_NO_DATA, b = REALM_NO_DATA;
    struct realm_task_stats stats;
    size_t sizes[] = {4, 4};
    uint64_t task = 99;
    uint8_t values[REALM_MOST_VALUES + 1] = {0};
    CHECK(!realm_tasks_new(2, &tasks) && !realm_data_new(&tasks, memory, 8, &a) && !realm_data_new(&tasks, memory + 8, 8, &b));
    CHECK(!realm_data_tiles(&tasks, a, 2, sizes));
    struct realm_use nine[] = {realm_reads(a), realm_reads(b), realm_reads(a), realm_reads(b), realm_reads(a), realm_reads(b), realm_reads(a), realm_reads(b), realm_reads(a)};
    struct realm_use beyond[] = {realm_reads_tile(a, 2)}, beyond_one[] = {realm_reads_tile(b, 1)}, mode[] = {realm_uses(a, 0, 2)};
    struct realm_use twice[] = {realm_reads(b), realm_reads(b)}, tile_twice[] = {realm_reads_tile(a, 1), realm_writes_tile(a, 1)};
    struct realm_use both[] = {realm_reads_tile(a, 1), realm_reads(a)}, one_and_all[] = {realm_reads_tile(b, 0), realm_writes(b)};
    struct realm_use apart[] = {realm_reads_tile(a, 1), realm_writes_tile(a, 0), realm_writes_tile(b, 0)};
    CHECK(realm_insert(&tasks, nothing, 0, nine, 9, &task) == REALM_MISUSE_RANGE && realm_insert(&tasks, nothing, 0, nine, SIZE_MAX, &task) == REALM_MISUSE_RANGE);
    CHECK(realm_insert(&tasks, nothing, 0, beyond, 1, &task) == REALM_MISUSE_RANGE && realm_insert(&tasks, nothing, 0, beyond_one, 1, &task) == REALM_MISUSE_RANGE);
    CHECK(realm_insert(&tasks, nothing, 0, mode, 1, &task) == REALM_MISUSE_RANGE && realm_insert(&tasks, 0, 0, 0, 0, &task) == REALM_MISUSE_NO_BODY);
    CHECK(realm_insert(&tasks, nothing, 0, twice, 2, &task) == REALM_MISUSE_MEET && realm_insert(&tasks, nothing, 0, tile_twice, 2, &task) == REALM_MISUSE_MEET);
    CHECK(realm_insert(&tasks, nothing, 0, both, 2, &task) == REALM_MISUSE_MEET && realm_insert(&tasks, nothing, 0, one_and_all, 2, &task) == REALM_MISUSE_MEET);
    CHECK(realm_insert_values(&tasks, nothing, values, sizeof values, 0, 0, &task) == REALM_MISUSE_RANGE && task == 99);
    CHECK(realm_tasks_window(&tasks, 0) == REALM_MISUSE_RANGE && realm_tasks_window(&tasks, 1025) == REALM_MISUSE_RANGE);
    CHECK(!realm_insert_values(&tasks, nothing, values, sizeof values - 1, apart, 3, &task) && task == 0);
    CHECK(!realm_insert_values(&tasks, nothing, values, 0, 0, 0, &task) && task == 1);
    CHECK(!realm_wait(&tasks, 0) && !realm_tasks_stats(&tasks, &stats) && stats.inserted == 2 && stats.done == 2 && stats.windows == 1 && stats.data == 2);
    return realm_tasks_free(&tasks);
}

/* What a task that waits in its body needs: a gate that is opened by hand. */
struct gate { pthread_mutex_t lock; pthread_cond_t changed; int is_open, inside; };

static uint32_t pass(void *argument) {
    struct gate *gate = argument;
    pthread_mutex_lock(&gate->lock);
    gate->inside++;
    pthread_cond_broadcast(&gate->changed);
    while (!gate->is_open) pthread_cond_wait(&gate->changed, &gate->lock);
    pthread_mutex_unlock(&gate->lock);
    return 0;
}

/* Stays for a moment, so that others park. */
static uint32_t doze(void *argument) {
    (void)argument;
    nanosleep(&(struct timespec){0, 100000000}, 0);
    return 0;
}

/* Stays until two are inside. */
static uint32_t meet(void *argument) {
    struct gate *gate = argument;
    pthread_mutex_lock(&gate->lock);
    gate->inside++;
    pthread_cond_broadcast(&gate->changed);
    while (gate->inside < 2) pthread_cond_wait(&gate->changed, &gate->lock);
    pthread_mutex_unlock(&gate->lock);
    return 0;
}

/* A thread that waits and sleeps is woken where a task is due that no worker is there for. */
static int waiter_helps(void) {
    static struct gate gate = {PTHREAD_MUTEX_INITIALIZER, PTHREAD_COND_INITIALIZER, 0, 0};
    struct realm_tasks tasks = REALM_NO_TASKS;
    struct realm_task_stats stats;
    struct realm_data a = REALM_NO_DATA;
    uint64_t task;
    uint32_t state = REALM_TASK_WAITING;
    CHECK(!realm_tasks_new(1, &tasks) && !realm_data_new(&tasks, memory, 8, &a));
    struct realm_use writes[] = {realm_writes(a)}, reads[] = {realm_reads(a)};
    CHECK(!realm_insert(&tasks, doze, 0, writes, 1, &task));
    do CHECK(!realm_tasks_stats(&tasks, &stats) && !realm_task_status(&tasks, task, &state));
    while (state == REALM_TASK_WAITING);
    nanosleep(&(struct timespec){0, 30000000}, 0);
    CHECK(!realm_insert(&tasks, meet, &gate, reads, 1, &task) && !realm_insert(&tasks, meet, &gate, reads, 1, &task));
    CHECK(!realm_wait(&tasks, 0) && !realm_tasks_stats(&tasks, &stats) && stats.by_waits >= 1);
    return realm_tasks_free(&tasks);
}

static void open_gate(struct gate *gate) {
    pthread_mutex_lock(&gate->lock);
    gate->is_open = 1;
    pthread_cond_broadcast(&gate->changed);
    pthread_mutex_unlock(&gate->lock);
}

static void see_inside(struct gate *gate, int count) {
    pthread_mutex_lock(&gate->lock);
    while (gate->inside < count) pthread_cond_wait(&gate->changed, &gate->lock);
    pthread_mutex_unlock(&gate->lock);
}

static void *wait_beside(void *tasks) {
    return (void *)(uintptr_t)realm_wait(tasks, 0);
}

/* Workers that sleep begin before a wait; what is needed is not freed; a second thread is told that the runtime is in use. */
static int needed(void) {
    static struct gate gate = {PTHREAD_MUTEX_INITIALIZER, PTHREAD_COND_INITIALIZER, 0, 0};
    struct realm_tasks tasks = REALM_NO_TASKS;
    struct realm_data a = REALM_NO_DATA, b = REALM_NO_DATA;
    size_t sizes[] = {4, 4};
    uint64_t first, second;
    uint32_t state;
    pthread_t beside;
    void *answer;
    CHECK(!realm_tasks_new(2, &tasks) && !realm_data_new(&tasks, memory, 8, &a) && !realm_data_new(&tasks, memory + 8, 8, &b));
    struct realm_use reads_both[] = {realm_reads(a), realm_reads(b)}, writes[] = {realm_writes(a)}, reads[] = {realm_reads(b)};
    doze(0);
    CHECK(!realm_insert(&tasks, pass, &gate, reads_both, 2, &first) && !realm_insert(&tasks, pass, &gate, reads, 1, &second));
    see_inside(&gate, 2);
    CHECK(!realm_insert(&tasks, nothing, 0, writes, 1, &second));
    CHECK(!realm_task_status(&tasks, first, &state) && state == REALM_TASK_RUNNING && !realm_task_status(&tasks, second, &state) && state == REALM_TASK_WAITING);
    CHECK(realm_task_status(&tasks, 3, &state) == REALM_MISUSE_RANGE);
    CHECK(realm_data_free(&tasks, &a) == REALM_MISUSE_NEEDED && realm_data_free(&tasks, &b) == REALM_MISUSE_NEEDED);
    CHECK(realm_data_tiles(&tasks, a, 2, sizes) == REALM_MISUSE_NEEDED);
    CHECK(!pthread_create(&beside, 0, wait_beside, &tasks));
    while (realm_task_status(&tasks, first, &state) != REALM_MISUSE_IN_USE) nanosleep(&(struct timespec){0, 1000000}, 0);
    CHECK(realm_insert(&tasks, nothing, 0, 0, 0, &second) == REALM_MISUSE_IN_USE && realm_tasks_free(&tasks) == REALM_MISUSE_IN_USE);
    open_gate(&gate);
    CHECK(!pthread_join(beside, &answer) && !answer);
    CHECK(!realm_data_tiles(&tasks, a, 2, sizes) && !realm_data_free(&tasks, &a) && !realm_data_free(&tasks, &b));
    return realm_tasks_free(&tasks);
}

/* Faults: of several the first in the order of insertion; what depends on one, across windows; then all goes on. */
static int faults(uint32_t workers, uint32_t window) {
    struct realm_tasks tasks = REALM_NO_TASKS;
    struct realm_data a = REALM_NO_DATA, b = REALM_NO_DATA, c = REALM_NO_DATA;
    struct realm_task_fault told;
    uint32_t seven = 7, nine = 9, none = 0, state;
    size_t sizes[] = {4, 4};
    uint64_t task[8];
    static const uint32_t wanted[] = {REALM_TASK_DONE, REALM_TASK_FAULTED, REALM_TASK_CANCELLED, REALM_TASK_DONE, REALM_TASK_CANCELLED, REALM_TASK_FAULTED, REALM_TASK_CANCELLED};
    CHECK(!realm_tasks_new(workers, &tasks) && !realm_tasks_window(&tasks, window) && !realm_data_new(&tasks, memory, 8, &a));
    CHECK(!realm_data_new(&tasks, memory + 8, 8, &b) && !realm_data_new(&tasks, memory + 16, 8, &c));
    struct realm_use writes_a[] = {realm_writes(a)}, reads_a[] = {realm_reads(a), realm_writes(b)}, writes_c[] = {realm_writes(c)}, reads_b[] = {realm_reads(b)};
    CHECK(!realm_insert(&tasks, fault, &none, writes_a, 1, &task[0]) && !realm_insert(&tasks, fault, &seven, writes_a, 1, &task[1]));
    CHECK(!realm_insert(&tasks, fault, &nine, reads_a, 2, &task[2]) && !realm_insert(&tasks, fault, &none, writes_c, 1, &task[3]));
    CHECK(!realm_insert(&tasks, fault, &nine, reads_b, 1, &task[4]) && !realm_insert(&tasks, fault, &nine, writes_c, 1, &task[5]));
    if (window == 6) CHECK(!realm_insert(&tasks, nothing, 0, 0, 0, &task[7]) && !realm_data_tiles(&tasks, b, 2, sizes));
    struct realm_use tile[] = {realm_reads_tile(b, 0)};
    CHECK(!realm_insert(&tasks, fault, &none, tile, 1, &task[6]));
    CHECK(realm_wait(&tasks, &told) == REALM_TASKS_FAULTED && told.task == task[1] && told.answer == 7 && !told.pointer);
    for (int k = 0; k < 7; k++) CHECK(!realm_task_status(&tasks, task[k], &state) && state == wanted[k]);
    CHECK(!realm_wait(&tasks, &told) && !told.task && !told.answer);
    CHECK(!realm_insert(&tasks, fault, &none, reads_a, 2, &task[0]) && !realm_wait(&tasks, &told));
    CHECK(!realm_task_status(&tasks, task[0], &state) && state == REALM_TASK_DONE);
    CHECK(!realm_insert(&tasks, fault, &nine, 0, 0, &task[0]));
    return realm_tasks_free(&tasks) != REALM_TASKS_FAULTED;
}

/* A datum that is freed and made anew before a wait has nothing to do with what was lost of it, also where its neighbour is freed then. */
static int made_anew(void) {
    struct realm_tasks tasks = REALM_NO_TASKS;
    struct realm_data a = REALM_NO_DATA, b = REALM_NO_DATA, freed;
    uint64_t lost, task;
    uint32_t seven = 7, state = REALM_TASK_WAITING;
    CHECK(!realm_tasks_new(1, &tasks) && !realm_data_new(&tasks, memory, 8, &a) && !realm_data_new(&tasks, memory + 8, 8, &b));
    struct realm_use use[] = {realm_writes(a)}, both[] = {realm_writes(a), realm_writes(b)};
    CHECK(!realm_insert(&tasks, nothing, 0, both, 2, &task) && !realm_wait(&tasks, 0));
    CHECK(!realm_insert(&tasks, fault, &seven, use, 1, &lost));
    while (state < REALM_TASK_DONE) CHECK(!realm_task_status(&tasks, lost, &state));
    freed = a;
    CHECK(state == REALM_TASK_FAULTED && !realm_data_free(&tasks, &a) && !realm_data_free(&tasks, &b));
    CHECK(!realm_data_new(&tasks, memory, 8, &a) && a.place != freed.place);
    use[0] = realm_writes(a);
    CHECK(!realm_insert(&tasks, nothing, 0, use, 1, &task) && realm_wait(&tasks, 0) == REALM_TASKS_FAULTED);
    CHECK(!realm_task_status(&tasks, task, &state) && state == REALM_TASK_DONE);
    return realm_tasks_free(&tasks);
}

/* A datum that is cut anew before a wait: lost are the tiles that have a byte of what was lost. */
static int cut_anew(void) {
    static const uint32_t wanted[] = {REALM_TASK_DONE, REALM_TASK_CANCELLED, REALM_TASK_CANCELLED, REALM_TASK_DONE};
    struct realm_tasks tasks = REALM_NO_TASKS;
    struct realm_data a = REALM_NO_DATA;
    uint64_t task;
    uint32_t seven = 7, state;
    size_t before[] = {4, 2, 2}, after[] = {2, 3, 1, 2};
    CHECK(!realm_tasks_new(0, &tasks) && !realm_tasks_window(&tasks, 1) && !realm_data_new(&tasks, memory, 8, &a) && !realm_data_tiles(&tasks, a, 3, before));
    struct realm_use use[] = {realm_writes_tile(a, 1)};
    CHECK(!realm_insert(&tasks, fault, &seven, use, 1, &task) && !realm_insert(&tasks, nothing, 0, 0, 0, &task));
    CHECK(!realm_data_tiles(&tasks, a, 4, after));
    for (uint32_t k = 0; k < 4; k++) {
        use[0] = realm_reads_tile(a, k);
        CHECK(!realm_insert(&tasks, nothing, 0, use, 1, &task));
    }
    CHECK(realm_wait(&tasks, 0) == REALM_TASKS_FAULTED);
    for (uint32_t k = 0; k < 4; k++) CHECK(!realm_task_status(&tasks, task - 3 + k, &state) && state == wanted[k]);
    return realm_tasks_free(&tasks);
}

static void *free_cancelled(void *tasks) {
    pthread_cancel(pthread_self());
    realm_tasks_free(tasks);
    return 0;
}

/* A thread that is to be cancelled waits and frees a runtime nevertheless. */
static int freed_by_cancelled(void) {
    struct realm_tasks tasks = REALM_NO_TASKS, copy;
    pthread_t thread;
    uint64_t task;
    CHECK(!realm_tasks_new(2, &tasks) && !realm_insert(&tasks, doze, 0, 0, 0, &task));
    copy = tasks;
    CHECK(!pthread_create(&thread, 0, free_cancelled, &tasks) && !pthread_join(thread, 0));
    CHECK(!tasks.at && realm_wait(&copy, 0) == REALM_MISUSE_USED_UP);
    return 0;
}

/* The states of many tasks: those of the last 65,536 of earlier windows are kept. */
static int many(void) {
    struct realm_tasks tasks = REALM_NO_TASKS;
    struct realm_task_stats stats;
    uint64_t task;
    uint32_t state, last = REALM_KEPT_TASKS + 5000;
    CHECK(!realm_tasks_new(3, &tasks));
    for (uint32_t k = 0; k < last; k++) CHECK(!realm_insert(&tasks, nothing, 0, 0, 0, &task) && task == k);
    CHECK(!realm_wait(&tasks, 0) && !realm_tasks_stats(&tasks, &stats) && stats.done == last && stats.windows == (last + REALM_WINDOW - 1) / REALM_WINDOW);
    CHECK(!realm_task_status(&tasks, 4999, &state) && state == REALM_TASK_LONG_OVER && !realm_task_status(&tasks, 5000, &state) && state == REALM_TASK_DONE);
    CHECK(realm_task_status(&tasks, last, &state) == REALM_MISUSE_RANGE && realm_task_status(&tasks, UINT64_MAX, &state) == REALM_MISUSE_RANGE);
    return realm_tasks_free(&tasks);
}

/* Data that come and go do not use up pieces, also where their numbers of tiles differ; pages are of zero bytes. */
static int data_in_turn(void) {
    struct realm_tasks tasks = REALM_NO_TASKS;
    struct realm_data data[8];
    size_t sizes[4096];
    uint64_t task;
    void *at;
    CHECK(!realm_tasks_new(1, &tasks));
    memset(data, 0, sizeof data);
    for (int k = 0; k < 4096; k++) sizes[k] = 1;
    for (int round = 0; round < 1000; round++) {
        struct realm_data *it = &data[round * 5 % 8];
        uint32_t count = 1 + (uint32_t)(round * 37 % 4096);
        if (it->of) CHECK(!realm_data_free(&tasks, it));
        CHECK(!realm_data_alloc(&tasks, count, &at, it) && !((uint8_t *)at)[count - 1] && !realm_data_tiles(&tasks, *it, count, sizes));
        struct realm_use use[] = {realm_writes(*it)};
        CHECK(!realm_insert(&tasks, nothing, 0, use, 1, &task) && !realm_wait(&tasks, 0));
    }
    return realm_tasks_free(&tasks);
}

/* The window as a graph, and lines on answers. */
static int texts(void) {
    static const char wanted[] = "realm 3\nspace all 0..2\nspace d0 0..1\nspace d1 2..2\nspace d0_1 1..1\ndata D all x\n"
                                 "k0 = call body0 write D.x d0\nk1 = call body1 read D.x d0 write D.x d1 on k0\nk2 = call body0 write D.x d0_1 on k1\n"
                                 "k3 = call body1\nk4 = call body1 write D.x d1 read D.x d0 on k2\nend\n";
    struct realm_tasks tasks = REALM_NO_TASKS;
    struct realm_data a = REALM_NO_DATA, b = REALM_NO_DATA;
    uint32_t none = 0;
    size_t sizes[] = {4, 4};
    uint8_t out[1024];
    uint64_t task, written;
    CHECK(!realm_tasks_new(0, &tasks) && !realm_data_new(&tasks, memory, 8, &a) && !realm_data_new(&tasks, memory + 8, 8, &b) && !realm_data_tiles(&tasks, a, 2, sizes));
    CHECK(!realm_tasks_graph(&tasks, out, sizeof out, &written) && written == strlen("realm 3\nspace all 0..1\ndata D all x\nend\n"));
    struct realm_use writes_a[] = {realm_writes(a)}, reads_a[] = {realm_reads(a), realm_writes(b)}, tile[] = {realm_writes_tile(a, 1)}, back[] = {realm_writes(b), realm_reads(a)};
    CHECK(!realm_insert(&tasks, fault, &none, writes_a, 1, &task) && !realm_insert(&tasks, nothing, 0, reads_a, 2, &task));
    CHECK(!realm_insert(&tasks, fault, &none, tile, 1, &task) && !realm_insert(&tasks, nothing, 0, 0, 0, &task) && !realm_insert(&tasks, nothing, 0, back, 2, &task));
    CHECK(!realm_tasks_graph(&tasks, out, sizeof out, &written));
    CHECK(written == sizeof wanted - 1 && !memcmp(out, wanted, written));
    CHECK(realm_tasks_graph(&tasks, out, 10, &written) == REALM_TASKS_NO_ROOM && written == sizeof wanted - 1);
    CHECK(!realm_wait(&tasks, 0) && !realm_tasks_free(&tasks));
    for (uint32_t status = 0; status < 40; status++) CHECK(!realm_tasks_message(status, out, sizeof out, &written) && written > 3);
    CHECK(realm_tasks_message(REALM_MISUSE_NEEDED, out, 5, &written) == REALM_TASKS_NO_ROOM && written > 5 && !memcmp(out, "a tas", 5));
    return 0;
}

int main(int count, char **words) {
    (void)words;
    if (handles_of_runtimes() || handles_of_data() || insertions() || from_bodies() || needed() || waiter_helps() || made_anew() || cut_anew() || freed_by_cancelled() || texts()) return 1;
    if (count < 2 && (many() || data_in_turn())) return 1;
    for (uint32_t workers = 0; workers < 3; workers++)
        for (uint32_t window = 1; window < 9; window++)
            if (faults(workers, window)) return printf("  by %u workers, windows of %u\n", workers, window), 1;
    puts("calls on tasks: as wanted");
    return 0;
}
