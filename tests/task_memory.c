/* Each allocation fails in turn: a call on tasks then says that memory was refused and changes nothing, and no block is lost. Link with
   -Wl,--wrap=malloc,--wrap=calloc,--wrap=realloc,--wrap=free */
#include "realm_tasks.h"
#include <stdio.h>
#include <stdlib.h>

void *__real_malloc(size_t), *__real_calloc(size_t, size_t), *__real_realloc(void *, size_t);
void __real_free(void *);
/* (workers take no memory, but their threads do, by calls that are not counted here) */
static _Atomic long left = -1, live;

static int fails(void) { return left >= 0 && left-- == 0; }
void *__wrap_malloc(size_t n) { void *p = fails() ? 0 : __real_malloc(n); live += p != 0; return p; }
void *__wrap_calloc(size_t n, size_t m) { void *p = fails() ? 0 : __real_calloc(n, m); live += p != 0; return p; }
void *__wrap_realloc(void *old, size_t n) { void *p = fails() ? 0 : __real_realloc(old, n); live += p && !old; return p; }
void __wrap_free(void *p) { live -= p != 0; __real_free(p); }

enum { COUNT = 24 };
static uint64_t cells[COUNT];
static int runs;

static uint32_t count_up(void *argument) {
    ++*(uint64_t *)argument;
    runs++;
    return 0;
}

/* Calls that may want memory, tried until they have it: each change is made once. How often memory was refused is counted. */
static long refused;

static uint32_t again(uint32_t status) {
    refused += status == REALM_TASKS_NO_MEMORY;
    return status == REALM_TASKS_NO_MEMORY;
}

#define TRY(call) do { uint32_t status_; do status_ = (call); while (again(status_)); if (status_) return status_; } while (0)

static uint32_t program(void) {
    struct realm_tasks tasks = {0};
    struct realm_data data[COUNT] = {{0, 0, 0}};
    struct realm_task_stats stats;
    static uint8_t text[1 << 14];
    uint64_t task, written;
    size_t sizes[] = {3, 5};
    TRY(realm_tasks_new(0, &tasks));
    for (int k = 0; k < COUNT; k++) TRY(realm_data_new(&tasks, &cells[k], sizeof cells[k], &data[k]));
    TRY(realm_data_tiles(&tasks, data[3], 2, sizes));
    for (int round = 0; round < 3; round++)
        for (int k = 0; k < COUNT; k++) {
            struct realm_use uses[] = {realm_reads(data[(k + 1) % COUNT]), realm_writes(data[k])};
            TRY(realm_insert(&tasks, count_up, &cells[k], uses, 2, &task));
            if (task != (uint64_t)(round * COUNT + k)) return 98;
        }
    TRY(realm_tasks_graph(&tasks, text, sizeof text, &written));
    if (realm_tasks_stats(&tasks, &stats) || stats.inserted != 3 * COUNT || stats.data != COUNT) return 97;
    uint32_t status = realm_wait(&tasks, 0);
    TRY(realm_data_tiles(&tasks, data[3], 1, &(size_t){8}));
    return status ? status : realm_tasks_free(&tasks);
}

/* So many allocations are made before one fails. The number of allocations, or -1. */
static long tries(void) {
    for (long n = 0;; n++) {
        long before = live;
        for (int k = 0; k < COUNT; k++) cells[k] = 0;
        runs = 0;
        refused = 0;
        left = n;
        uint32_t status = program();
        int failed = left < 0;
        left = -1;
        if (status || live != before) return printf("failure %ld: status %u, %ld blocks lost\n", n, status, live - before), -1;
        for (int k = 0; k < COUNT; k++)
            if (cells[k] != 3) return printf("failure %ld: task ran %llu times\n", n, (unsigned long long)cells[k]), -1;
        if (refused != failed) return printf("failure %ld: refused %ld times\n", n, refused), -1;
        if (!failed) return n;
    }
}

int main(void) {
    /* (the table of handles keeps the block that the first call makes) */
    if (program()) return 1;
    long plain = tries();
    setenv("REALM_GUARD", "1", 1);
    long guarded = plain < 0 ? -1 : tries();
    if (guarded < 0) return 1;
    printf("tasks: %ld allocations, and %ld under the guard, each refused in turn\n", plain, guarded);
    return 0;
}
