/* Random calls on runtimes of tasks, right and wrong, by threads that share them. Usage: task_threads COUNT [SEED]

   Each call does what its page says or answers misuse: nothing faults, and each task that was inserted has run once in the end. */
#include "realm_tasks.h"
#include <pthread.h>
#include <stdatomic.h>
#include <stdio.h>
#include <stdlib.h>
#include <string.h>

enum { THREADS = 4, RUNTIMES = 2, DATA = 6, BYTES = 32 };
static struct realm_tasks runtimes[RUNTIMES];
static _Atomic uint64_t copies[RUNTIMES], old;
static _Atomic long inserted, ran, answers[32];
static long steps;

struct thread { uint64_t draw; int number; pthread_t id; struct realm_data data[DATA]; uint8_t memory[DATA * BYTES]; };

static uint32_t draw(struct thread *t, uint32_t below) {
    t->draw ^= t->draw << 13;
    t->draw ^= t->draw >> 7;
    t->draw ^= t->draw << 17;
    return (uint32_t)((t->draw * 0x9e3779b97f4a7c15u) >> 33) % below;
}

static uint32_t note(uint32_t status) {
    if (status >= 32) abort();
    answers[status]++;
    return status;
}

static uint32_t body(void *argument) {
    (void)argument;
    ran++;
    return 0;
}

static void insert(struct thread *t, struct realm_tasks *tasks) {
    struct realm_use uses[3];
    uint64_t task;
    size_t count = draw(t, 4);
    for (size_t k = 0; k < count; k++) uses[k] = realm_uses(t->data[draw(t, DATA)], draw(t, 3) ? REALM_WHOLE : draw(t, 4), draw(t, 20) ? draw(t, 2) : 2);
    inserted += !note(realm_insert(tasks, body, 0, uses, count, &task));
}

static void step(struct thread *t) {
    size_t sizes[] = {8, 16, 8}, k = draw(t, DATA);
    struct realm_tasks copy = {draw(t, 30) ? copies[draw(t, RUNTIMES)] : draw(t, 2) ? (uint64_t)old : draw(t, 3)};
    struct realm_task_stats stats;
    struct realm_task_fault fault;
    uint32_t state;
    uint8_t text[64];
    uint64_t written;
    void *pointer;
    switch (draw(t, 16)) {
    case 0: note(realm_wait(&copy, &fault)); break;
    case 1: note(realm_data_new(&copy, t->memory + BYTES * k, BYTES, &t->data[k])); break;
    case 2: note(realm_data_alloc(&copy, BYTES, &pointer, &t->data[k])); break;
    case 3: note(realm_data_tiles(&copy, t->data[k], 3, sizes)); break;
    case 4: note(realm_data_free(&copy, &t->data[k])); break;
    case 5: note(realm_task_status(&copy, draw(t, 2000), &state)); break;
    case 6: note(realm_tasks_stats(&copy, &stats)); break;
    case 7: note(realm_tasks_window(&copy, draw(t, 30))); break;
    case 8: note(realm_tasks_graph(&copy, text, sizeof text, &written)); break;
    case 9:
        if (t->number >= RUNTIMES || draw(t, 20)) break;
        old = copy.at = copies[t->number];
        note(realm_tasks_free(&copy));
        if (!note(realm_tasks_new(draw(t, 4), &copy))) copies[t->number] = copy.at;
        break;
    default: insert(t, &copy);
    }
}

static void *act(void *of) {
    struct thread *t = of;
    for (long k = 0; k < steps; k++) step(t);
    return 0;
}

int main(int count, char **words) {
    static struct thread threads[THREADS];
    uint64_t seed = count > 2 ? strtoull(words[2], 0, 10) : 1;
    steps = count > 1 ? atol(words[1]) : 1000;
    for (int k = 0; k < RUNTIMES; k++) {
        if (note(realm_tasks_new(2, &runtimes[k]))) return 1;
        copies[k] = runtimes[k].at;
    }
    for (int k = 0; k < THREADS; k++) {
        threads[k].draw = seed * 0x9e3779b97f4a7c15u + 77777 * (uint64_t)k + 1;
        threads[k].number = k;
        if (pthread_create(&threads[k].id, 0, act, &threads[k])) return 1;
    }
    for (int k = 0; k < THREADS; k++) pthread_join(threads[k].id, 0);
    for (int k = 0; k < RUNTIMES; k++) {
        struct realm_tasks copy = {copies[k]};
        if (note(realm_tasks_free(&copy))) return puts("a runtime is not freed"), 1;
    }
    printf("%ld calls by %d threads: %ld tasks, %ld run; misuse:", steps * THREADS, THREADS, (long)inserted, (long)ran);
    for (int k = 11; k < 32; k++)
        if (answers[k]) printf(" %d: %ld", k, (long)answers[k]);
    puts("");
    return inserted != ran;
}
