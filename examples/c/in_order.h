/* What the examples with tasks share, in C and C++: the same program is run as tasks, or its bodies one after another. */
#ifndef IN_ORDER_H
#define IN_ORDER_H
#include "realm_tasks.h"
#include <stdio.h>
#include <stdlib.h>
#include <string.h>

/* Ends the program where a call did not do what it was asked for. */
static inline void done(const char *what, uint32_t status) {
    uint8_t line[128];
    uint64_t length;
    if (!status) return;
    realm_tasks_message(status, line, sizeof line, &length);
    fprintf(stderr, "%s: %.*s\n", what, (int)length, (const char *)line);
    exit(1);
}

/* Inserts a task, or without a runtime runs its body at once. */
static inline void in_order(struct realm_tasks *tasks, realm_task_body body, void *values, size_t bytes, const struct realm_use *uses, size_t count) {
    uint64_t task;
    if (tasks) done("a task", realm_insert_values(tasks, body, values, bytes, uses, count, &task));
    else done("a body", body(values));
}

/* Where there is a runtime: memory as a datum of so many tiles of one size, and the wait for all. */
static inline struct realm_data tiles_of(struct realm_tasks *tasks, void *memory, uint32_t count, size_t bytes) {
    struct realm_data data = REALM_NO_DATA;
    size_t *sizes = (size_t *)malloc(count * sizeof *sizes);
    if (!sizes) done("memory", REALM_TASKS_NO_MEMORY);
    for (uint32_t k = 0; k < count; k++) sizes[k] = bytes;
    if (tasks) done("a datum", realm_data_new(tasks, memory, count * bytes, &data));
    if (tasks) done("its tiles", realm_data_tiles(tasks, data, count, sizes));
    free(sizes);
    return data;
}

static inline void wait_here(struct realm_tasks *tasks) {
    if (tasks) done("a wait", realm_wait(tasks, 0));
}

static inline double *doubles(size_t count) {
    double *memory = (double *)calloc(count, sizeof *memory);
    if (!memory) done("memory", REALM_TASKS_NO_MEMORY);
    return memory;
}

/* Runs a program so many times by so many workers, and compares what it leaves with what it leaves without a runtime. 0 where it is the
   same each time, bit by bit. A program leaves `count` doubles in `out`. */
static inline int compare_runs(void (*program)(struct realm_tasks *, double *out), size_t count, uint32_t workers, long runs) {
    double *wanted = doubles(count), *found = doubles(count);
    int differ = 0;
    program(0, wanted);
    for (long run = 0; run < runs && !differ; run++) {
        struct realm_tasks tasks = REALM_NO_TASKS;
        memset(found, 0, count * sizeof *found);
        done("a runtime", realm_tasks_new(workers, &tasks));
        program(&tasks, found);
        done("its end", realm_tasks_free(&tasks));
        differ = memcmp(wanted, found, count * sizeof *found) != 0;
    }
    printf("%s\n", differ ? "another result" : "the same, bit by bit");
    free(wanted);
    free(found);
    return differ;
}
#endif
