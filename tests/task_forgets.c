/* A wait that overlooks a task says so, and loses nothing. Link with -Wl,--wrap=proved_realm_window_take, which here says once that no task
   is due, where one is. */
#include "realm_tasks.h"
#include "../c/proved_calls.h"
#include <stdio.h>

uint32_t __real_proved_realm_window_take(struct proved_held *window, uint32_t *task, uint32_t *is_cancelled);
static int hidden;

uint32_t __wrap_proved_realm_window_take(struct proved_held *window, uint32_t *task, uint32_t *is_cancelled) {
    return hidden ? (uint32_t)REALM_WINDOW_NONE : __real_proved_realm_window_take(window, task, is_cancelled);
}

static int runs;
static uint32_t count(void *argument) { return (void)argument, runs++, 0; }

int main(void) {
    struct realm_tasks tasks = REALM_NO_TASKS;
    uint64_t task;
    for (uint32_t workers = 0; workers < 2; workers++) {
        runs = 0;
        if (realm_tasks_new(workers, &tasks) || realm_tasks_window(&tasks, 1)) return 1;
        hidden = 1;
        if (realm_insert(&tasks, count, 0, 0, 0, &task)) return 2;
        if (realm_wait(&tasks, 0) != REALM_MISUSE_FORGOTTEN || realm_insert(&tasks, count, 0, 0, 0, &task) != REALM_MISUSE_FORGOTTEN || runs) return 3;
        hidden = 0;
        if (realm_tasks_window(&tasks, 2) || realm_insert(&tasks, count, 0, 0, 0, &task) || task != 1) return 4;
        if (realm_wait(&tasks, 0) || runs != 2 || realm_tasks_free(&tasks)) return 5;
    }
    puts("a wait that overlooks a task says so");
    return 0;
}
