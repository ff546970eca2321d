/* The guard of tasks: each planted access that a task did not declare is told, with task, datum, byte and what was declared, and none is told of
   tasks that keep to what they declared. Usage: task_guard [few]; the status is 0 where all is so. With `few` what takes many ranges of pages is left
   out. */
#define _GNU_SOURCE
#include "realm_tasks.h"
#include <fcntl.h>
#include <signal.h>
#include <stdio.h>
#include <stdlib.h>
#include <string.h>
#include <sys/mman.h>
#include <sys/wait.h>
#include <unistd.h>

#define CHECK(it) do { if (!(it)) return printf("task_guard.c:%d: %s\n", __LINE__, #it), 1; } while (0)

enum { SMALL = 400, PAGES = 4, TILES = 4 };
enum what { NEW_SMALL, NEW_OTHER, NEW_TILED, NEW_PAGES, NEW_PAGE_TILES, NEW_ARRAY, KINDS };
static size_t page;
static uint8_t *memory[KINDS];
static struct realm_data data[KINDS];
static uint8_t small[SMALL], other[SMALL], tiled[SMALL];
static uint8_t *array;                    /* that begins and ends within pages */
static struct realm_tasks tasks;
static int errors[2];

/* What a body accesses: bytes of a datum, from one on. */
struct access { int what, is_write, is_same; size_t byte, count; };
static volatile uint8_t seen;
static uint8_t counter;                   /* (one body runs at a time) */

static uint32_t access_bytes(void *argument) {
    const struct access *it = argument;
    for (size_t k = 0; k < it->count; k++) {
        volatile uint8_t *at = memory[it->what] + it->byte + k;
        if (!it->is_write) seen = *at;
        else *at = it->is_same ? 0 : ++counter % 255 + 1;
    }
    return 0;
}

/* One more body, which says by its state whether it was cancelled. */
static uint32_t nothing(void *argument) { return (void)argument, 0; }

static int make(void) {
    size_t sizes[TILES] = {SMALL / TILES, SMALL / TILES, SMALL / TILES, SMALL / TILES};
    size_t page_sizes[TILES] = {2 * page, 2 * page, 2 * page, 2 * page};
    void *at;
    memset(data, 0, sizeof data);
    CHECK(!realm_tasks_new(4, &tasks));
    CHECK(!realm_data_new(&tasks, memory[NEW_SMALL] = small, SMALL, &data[NEW_SMALL]));
    CHECK(!realm_data_new(&tasks, memory[NEW_OTHER] = other, SMALL, &data[NEW_OTHER]));
    CHECK(!realm_data_new(&tasks, memory[NEW_TILED] = tiled, SMALL, &data[NEW_TILED]));
    CHECK(!realm_data_tiles(&tasks, data[NEW_TILED], TILES, sizes));
    CHECK(!realm_data_alloc(&tasks, PAGES * page - 5, &at, &data[NEW_PAGES]));
    memory[NEW_PAGES] = at;
    CHECK(!realm_data_alloc(&tasks, 2 * TILES * page, &at, &data[NEW_PAGE_TILES]));
    memory[NEW_PAGE_TILES] = at;
    CHECK(!realm_data_tiles(&tasks, data[NEW_PAGE_TILES], TILES, page_sizes));
    CHECK(!realm_data_new(&tasks, memory[NEW_ARRAY] = array + 100, 3 * page, &data[NEW_ARRAY]));
    return 0;
}

/* What was written to standard error since the last call. */
static const char *said(void) {
    static char text[4096];
    ssize_t length = read(errors[0], text, sizeof text - 1);
    text[length > 0 ? length : 0] = 0;
    return text;
}

/* A planted access, what the task declares, and what is to be told of it. */
struct plant { const char *name; struct access access; int declared_of, tile, mode; uint32_t declared, written; };

static int try_plant(const struct plant *plant) {
    struct access kept = {NEW_OTHER, 1, 0, 0, SMALL}, access = plant->access;
    struct realm_task_fault fault;
    uint64_t first, task, later, apart;
    uint32_t state;
    char wanted[128];
    CHECK(!make());
    /* a task that keeps to what it declared, the one that does not, one that depends on it, and one that does not */
    struct realm_use keeps[] = {realm_writes(data[NEW_OTHER]), realm_writes(data[NEW_PAGES]), realm_reads(data[NEW_PAGE_TILES]), realm_writes(data[NEW_ARRAY])};
    CHECK(!realm_insert(&tasks, access_bytes, &kept, keeps, 4, &first));
    struct realm_use uses[] = {realm_writes(data[NEW_SMALL]), realm_uses(data[plant->declared_of], (uint32_t)plant->tile, (uint32_t)plant->mode)};
    int is_one = plant->declared_of == NEW_SMALL;
    CHECK(!realm_insert(&tasks, access_bytes, &access, is_one ? uses + 1 : uses, is_one ? 1 : 2, &task));
    struct realm_use follows[] = {is_one ? realm_writes(data[NEW_SMALL]) : realm_reads(data[NEW_SMALL])};
    CHECK(!realm_insert(&tasks, nothing, 0, follows, 1, &later) && !realm_insert(&tasks, access_bytes, &kept, keeps, 1, &apart));
    CHECK(realm_wait(&tasks, &fault) == REALM_TASKS_UNDECLARED);
    CHECK(fault.task == task && fault.pointer == memory[plant->access.what] && fault.byte == plant->access.byte && fault.answer == 0);
    CHECK(fault.declared == plant->declared && fault.datum == (uint64_t)plant->access.what);
    CHECK(fault.written == plant->written);
    snprintf(wanted, sizeof wanted, "realm guard: task 1 %s byte %zu of datum %d", plant->written ? "wrote" : "read", plant->access.byte, plant->access.what);
    const char *words = said();
    if (plant->written && !strstr(words, wanted)) snprintf(wanted, sizeof wanted, "realm guard: task 1 changed byte %zu of datum %d", plant->access.byte, plant->access.what);
    CHECK(strstr(words, wanted) == words && strchr(words, '\n') == words + strlen(words) - 1);
    CHECK(strstr(words, plant->declared ? "it declared to read it" : "it declared no access to it"));
    CHECK(!realm_task_status(&tasks, task, &state) && state == REALM_TASK_FAULTED);
    CHECK(!realm_task_status(&tasks, later, &state) && state == REALM_TASK_CANCELLED);
    CHECK(!realm_task_status(&tasks, apart, &state) && state == REALM_TASK_DONE);
    CHECK(!realm_wait(&tasks, &fault) && !realm_tasks_free(&tasks));
    return 0;
}

static int try_plants(int *count) {
    const struct plant plants[] = {
        {"writes a datum that it does not declare", {NEW_OTHER, 1, 0, 7, 2}, NEW_SMALL, -1, 1, 0, 1},
        {"writes the last byte of such a datum", {NEW_OTHER, 1, 0, SMALL - 1, 1}, NEW_SMALL, -1, 1, 0, 1},
        {"writes a datum that it declares to read", {NEW_SMALL, 1, 0, 0, SMALL}, NEW_SMALL, -1, 0, 1, 1},
        {"writes behind its tile", {NEW_TILED, 1, 0, SMALL / 2, 1}, NEW_TILED, 1, 1, 0, 1},
        {"writes a tile of a datum that it declares to read", {NEW_TILED, 1, 0, SMALL / 4, 9}, NEW_TILED, -1, 0, 1, 1},
        {"writes two tiles of a datum that it does not declare", {NEW_TILED, 1, 0, SMALL / 4 - 1, 2}, NEW_SMALL, -1, 1, 0, 1},
        {"reads pages that it does not declare", {NEW_PAGES, 0, 0, 3 * page + 2, 9}, NEW_SMALL, -1, 1, 0, 0},
        {"reads the last byte of pages that it does not declare", {NEW_PAGES, 0, 0, PAGES * page - 6, 1}, NEW_SMALL, -1, 1, 0, 0},
        {"writes pages that it does not declare", {NEW_PAGES, 1, 0, 0, 2 * page}, NEW_SMALL, -1, 1, 0, 1},
        {"writes pages that it declares to read", {NEW_PAGES, 1, 0, page, 1}, NEW_PAGES, -1, 0, 1, 1},
        {"writes what is there into pages that it declares to read", {NEW_PAGES, 1, 1, 5, 1}, NEW_PAGES, -1, 0, 1, 1},
        {"reads the tile behind its own", {NEW_PAGE_TILES, 0, 0, 4 * page, 1}, NEW_PAGE_TILES, 1, 1, 0, 0},
        {"writes the tile before its own", {NEW_PAGE_TILES, 1, 0, 2 * page - 1, 1}, NEW_PAGE_TILES, 1, 1, 0, 1},
        {"reads a whole page of an array", {NEW_ARRAY, 0, 0, page, 3}, NEW_SMALL, -1, 1, 0, 0},
        {"writes the last byte of an array that it declares to read", {NEW_ARRAY, 1, 0, 3 * page - 1, 1}, NEW_ARRAY, -1, 0, 1, 1},
        {"writes the first byte of an array that it declares to read", {NEW_ARRAY, 1, 0, 0, 1}, NEW_ARRAY, -1, 0, 1, 1},
    };
    *count = sizeof plants / sizeof *plants;
    for (int k = 0; k < *count; k++)
        if (try_plant(&plants[k])) return printf("  of a body that %s\n", plants[k].name), 1;
    return 0;
}

/* Tasks that keep to what they declared: each kind of datum is read and written, whole and tile by tile, over several windows, and by the
   program between waits. */
static int try_correct(void) {
    CHECK(!make());
    struct realm_task_stats stats;
    CHECK(!realm_tasks_window(&tasks, 7));
    for (int round = 0; round < 20; round++) {
        for (int what = 0; what < KINDS; what++) {
            size_t bytes = what == NEW_PAGES ? PAGES * page - 5 : what == NEW_PAGE_TILES ? 2 * TILES * page : what == NEW_ARRAY ? 3 * page : SMALL;
            int is_cut = what == NEW_TILED || what == NEW_PAGE_TILES, tile = is_cut && round % 2 ? round % TILES : -1;
            struct access access = {what, round % 3 != 0, round % 5 == 0, tile < 0 ? 0 : bytes / TILES * (size_t)tile, tile < 0 ? bytes : bytes / TILES};
            struct realm_use uses[] = {realm_uses(data[what], (uint32_t)tile, (uint32_t)access.is_write)};
            uint64_t task;
            CHECK(!realm_insert_values(&tasks, access_bytes, &access, sizeof access, uses, 1, &task));
        }
        if (round % 4 == 3) {
            CHECK(!realm_wait(&tasks, 0));
            memset(memory[NEW_PAGES], round, PAGES * page - 5);
            array[100] = (uint8_t)round;
        }
    }
    CHECK(!realm_wait(&tasks, 0) && !realm_tasks_stats(&tasks, &stats));
    CHECK(stats.is_guarded && stats.workers == 0 && stats.done == 20 * KINDS && stats.by_waits == stats.done && !*said());
    CHECK(!realm_tasks_free(&tasks));
    return 0;
}

/* An undeclared access is told before an earlier fault of a body, and of several the first. */
static uint32_t fault(void *argument) { return (void)argument, 5; }

static int try_both(void) {
    struct access access = {NEW_OTHER, 1, 0, 3, 1};
    struct realm_task_fault told;
    uint64_t task, number;
    CHECK(!make() && !realm_insert(&tasks, fault, 0, 0, 0, &task) && !realm_insert(&tasks, access_bytes, &access, 0, 0, &number));
    CHECK(!realm_insert(&tasks, access_bytes, &access, 0, 0, &task) && !realm_insert(&tasks, fault, 0, 0, 0, &task));
    CHECK(realm_wait(&tasks, &told) == REALM_TASKS_UNDECLARED && told.task == number && told.byte == 3 && strstr(said(), "task 2"));
    CHECK(!realm_insert(&tasks, fault, 0, 0, 0, &task) && realm_wait(&tasks, &told) == REALM_TASKS_FAULTED && told.task == task && told.answer == 5);
    return realm_tasks_free(&tasks);
}

static uint32_t order[3], ran;
static uint32_t note_order(void *argument) {
    order[ran++] = *(uint32_t *)argument;
    return 0;
}

/* Tasks are performed in the order of insertion, where the second is due later than the third. */
static int try_order(void) {
    uint64_t task;
    CHECK(!make());
    struct realm_use uses[] = {realm_writes(data[NEW_SMALL])};
    for (uint32_t k = 0; k < 3; k++) CHECK(!realm_insert_values(&tasks, note_order, &k, sizeof k, uses, k < 2, &task));
    CHECK(!realm_wait(&tasks, 0) && ran == 3 && order[0] == 0 && order[1] == 1 && order[2] == 2);
    return realm_tasks_free(&tasks);
}

/* The body of a guarded task waits for tasks of a second guarded runtime, and accesses what it did not declare there and behind that. */
static struct realm_tasks inner;
static uint32_t nest(void *argument) {
    struct access access = {NEW_PAGES, 0, 0, 1, 1}, later = {NEW_ARRAY, 1, 0, page, 1};
    struct realm_data pages = REALM_NO_DATA;
    void *at;
    uint64_t task;
    struct realm_task_fault fault;
    (void)argument;
    if (realm_tasks_new(0, &inner) || realm_data_alloc(&inner, page, &at, &pages)) return 1;
    if (realm_insert(&inner, access_bytes, &access, 0, 0, &task)) return 2;
    return realm_wait(&inner, &fault) ? 3 : realm_tasks_free(&inner) + access_bytes(&later);
}

static int try_nested(void) {
    struct realm_task_fault fault;
    uint64_t task;
    CHECK(!make() && !realm_insert(&tasks, nest, 0, 0, 0, &task));
    CHECK(realm_wait(&tasks, &fault) == REALM_TASKS_UNDECLARED && fault.datum == NEW_PAGES && fault.byte == 1);
    const char *words = said();
    CHECK(strstr(words, "realm guard: task 0 read byte 1 of datum 3") && strstr(words, "datum 5"));
    CHECK(!realm_tasks_free(&tasks));
    return 0;
}

static uint32_t crash(void *argument) {
    (void)argument;
    raise(SIGSEGV);
    return 0;
}

static void own_handler(int number) { _exit(number == SIGSEGV ? 42 : 1); }

/* A signal that is none of the guard's goes to the program's handler, ends the program, or is ignored. */
static int try_other_faults(void (*handler)(int)) {
    int status;
    pid_t child = fork();
    if (!child) {
        uint64_t task;
        signal(SIGSEGV, handler);
        if (make() || realm_insert(&tasks, crash, 0, 0, 0, &task)) _exit(2);
        realm_wait(&tasks, 0);
        _exit(3);
    }
    CHECK(child > 0 && waitpid(child, &status, 0) == child);
    if (handler == SIG_DFL) CHECK(WIFSIGNALED(status) && WTERMSIG(status) == SIGSEGV);
    else CHECK(WIFEXITED(status) && WEXITSTATUS(status) == (handler == SIG_IGN ? 3 : 42));
    return 0;
}

/* A thread that blocks SIGSEGV, and has a handler of its own, is told of accesses to pages too, and blocks it behind a wait as before. */
static int try_blocked(void) {
    struct access access = {NEW_PAGES, 1, 0, 5, 1};
    sigset_t set, was;
    uint64_t task;
    sigemptyset(&set);
    sigaddset(&set, SIGSEGV);
    CHECK(!make() && !pthread_sigmask(SIG_BLOCK, &set, 0) && signal(SIGSEGV, own_handler) != SIG_ERR);
    CHECK(!realm_insert(&tasks, access_bytes, &access, 0, 0, &task) && realm_wait(&tasks, 0) == REALM_TASKS_UNDECLARED);
    CHECK(!pthread_sigmask(SIG_UNBLOCK, &set, &was) && sigismember(&was, SIGSEGV) && strstr(said(), "task 0 wrote byte 5 of datum 3"));
    return realm_tasks_free(&tasks);
}

/* More ranges of pages than the system has: what a task declares it may access all the same, and what it doesn't and changes is told. */
static int try_many_ranges(void) {
    enum { RANGES = 40000 };
    struct access access = {NEW_PAGE_TILES, 1, 0, 2 * page, 1};
    struct realm_task_fault fault;
    uint8_t *pages = mmap(0, 2 * RANGES * page, PROT_READ | PROT_WRITE, MAP_PRIVATE | MAP_ANONYMOUS, -1, 0), *last = pages + 2 * (RANGES - 1) * page;
    uint64_t task;
    CHECK(pages != MAP_FAILED && !make());
    for (uint32_t k = 0; k < RANGES; k++) CHECK(!realm_data_new(&tasks, pages + 2 * k * page, page, &(struct realm_data){0, 0, 0}));
    struct realm_use uses[] = {realm_writes_tile(data[NEW_PAGE_TILES], 1)};
    CHECK(!realm_insert(&tasks, access_bytes, &access, uses, 1, &task) && !realm_wait(&tasks, 0) && !*said());
    memory[NEW_PAGES] = last;
    access = (struct access){NEW_PAGES, 1, 0, 3, 1};
    CHECK(!realm_insert(&tasks, access_bytes, &access, 0, 0, &task) && realm_wait(&tasks, &fault) == REALM_TASKS_UNDECLARED);
    CHECK(fault.pointer == last && fault.byte == 3 && fault.written && strstr(said(), "realm guard: task 1"));
    return realm_tasks_free(&tasks) || munmap(pages, 2 * RANGES * page);
}

int main(int words, char **word) {
    int count;
    (void)word;
    page = (size_t)sysconf(_SC_PAGESIZE);
    array = malloc(4 * page);
    setenv("REALM_GUARD", "1", 1);
    if (!array || pipe2(errors, O_NONBLOCK) || dup2(errors[1], 2) < 0) return puts("no memory or no pipe"), 1;
    memset(array, 0, 4 * page);
    if (try_plants(&count) || try_correct() || try_both() || try_order() || try_nested()) return 1;
    if (try_other_faults(SIG_DFL) || try_other_faults(SIG_IGN) || try_other_faults(own_handler) || try_blocked()) return 1;
    if (words < 2 && try_many_ranges()) return 1;
    free(array);
    printf("the guard of tasks: %d planted accesses told, and none of a correct program\n", count);
    return 0;
}
