/* Random programs of tasks beside the same bodies one after another. Usage: task_programs COUNT [SEED]; or task_programs graph SEED, which
   writes the tasks of one program as a graph.

   A program has 500 tasks over 40 data, of which some are cut into tiles and cut anew, behind waits and between them, with waits, faults
   and windows of any size, by 0 to 8 workers. The memory, how each task ended, and what each wait tells has to be as one after another. Where no program has
   ended for two minutes that is told, and the status is 1. */
#include "realm_tasks.h"
#include <signal.h>
#include <stdio.h>
#include <stdlib.h>
#include <string.h>
#include <unistd.h>

enum { DATA = 40, TASKS = 500, MOST_WORDS = 96, MOST_TILES = 8, SECONDS_WITHOUT_END = 120 };

struct part { uint32_t datum, tile, writes, first, last; };   /* words of a datum: from first, before last */
struct task {
    struct part parts[REALM_MOST_USES];
    uint32_t count, fault_in;       /* of so many tasks that find the same about one faults; 0: none */
    uint64_t number, seed;
    int is_lost;
    uint32_t state, answer;
};
struct datum { uint32_t words, tiles, ends[MOST_TILES]; struct realm_data handle; int was_cut; };   /* was cut: since the last wait */

static struct datum data[DATA];
static struct task tasks[TASKS];
static uint64_t parallel[DATA][MOST_WORDS], sequential[DATA][MOST_WORDS];
static uint64_t state;
static long program;

static uint32_t draw(uint32_t below) {
    state ^= state << 13;
    state ^= state >> 7;
    state ^= state << 17;
    return (uint32_t)((state * 0x9e3779b97f4a7c15u) >> 33) % below;
}

static void wrong(const char *what, uint64_t number) {
    fprintf(stderr, "task_programs: program %ld: %s, %llu\n", program, what, (unsigned long long)number);
    _exit(1);
}

static void wants(const char *what, uint32_t found, uint32_t wanted) {
    if (found != wanted) wrong(what, found);
}

static void late(int signal) {
    (void)signal;
    static const char said[] = "task_programs: no program has ended for two minutes\n";
    if (write(2, said, sizeof said - 1)) _exit(1);
    _exit(1);
}

/* What a task does: it mixes all that it accesses, and puts that into what it writes. It may fault before or behind that. */
static uint32_t body_over(const struct task *task, uint64_t (*memory)[MOST_WORDS]) {
    uint64_t mixed = task->seed;
    for (uint32_t k = 0; k < task->count; k++)
        for (uint32_t w = task->parts[k].first; w < task->parts[k].last; w++) mixed = (mixed ^ memory[task->parts[k].datum][w]) * 0x100000001b3u;
    uint32_t answer = task->fault_in && mixed >> 20 & 1 && mixed % task->fault_in == 0 ? (uint32_t)(mixed >> 40) | 1 : 0;
    if (answer && mixed >> 21 & 1) return answer;
    for (uint32_t k = 0; k < task->count; k++)
        for (uint32_t w = task->parts[k].first; task->parts[k].writes && w < task->parts[k].last; w++)
            memory[task->parts[k].datum][w] = memory[task->parts[k].datum][w] * 6364136223846793005u + mixed + w;
    return answer;
}

static uint32_t body(void *argument) { return body_over(argument, parallel); }

static uint32_t body_of_values(void *argument) {
    uint32_t task;
    memcpy(&task, argument, sizeof task);
    memset(argument, 255, sizeof task);
    return body_over(&tasks[task], parallel);
}

static int conflict(const struct task *a, const struct task *b) {
    for (uint32_t i = 0; i < a->count; i++)
        for (uint32_t j = 0; j < b->count; j++) {
            const struct part *x = &a->parts[i], *y = &b->parts[j];
            if (x->datum == y->datum && (x->writes || y->writes) && x->first < y->last && y->first < x->last) return 1;
        }
    return 0;
}

/* The tasks from one to before another, one after the other. The first that faults, or the other. */
static uint32_t run_sequence(uint32_t from, uint32_t to) {
    uint32_t first = to;
    for (uint32_t t = from; t < to; t++) {
        struct task *task = &tasks[t];
        task->is_lost = 0;
        for (uint32_t earlier = from; earlier < t && !task->is_lost; earlier++) task->is_lost = tasks[earlier].state != REALM_TASK_DONE && conflict(&tasks[earlier], task);
        task->answer = task->is_lost ? 0 : body_over(task, sequential);
        task->state = task->is_lost ? REALM_TASK_CANCELLED : task->answer ? REALM_TASK_FAULTED : REALM_TASK_DONE;
        if (task->answer && first == to) first = t;
    }
    return first;
}

/* Cuts a datum into tiles of drawn sizes, unless a task of the window needs it, which may be or not. */
static void cut(struct realm_tasks *runtime, struct datum *datum, int may_be_needed) {
    struct datum new = *datum;
    size_t sizes[MOST_TILES];
    new.tiles = 1 + draw(new.words < MOST_TILES ? new.words : MOST_TILES);
    uint32_t at = 0;
    for (uint32_t k = 0; k < new.tiles; k++) {
        uint32_t left = new.words - at - (new.tiles - 1 - k), size = k + 1 == new.tiles ? left : 1 + draw(left);
        sizes[k] = 8 * (size_t)size;
        new.ends[k] = at += size;
    }
    uint32_t status = realm_data_tiles(runtime, new.handle, new.tiles, sizes);
    if (may_be_needed && status == REALM_MISUSE_NEEDED) return;
    wants("tiles", status, REALM_TASKS_DONE);
    new.was_cut = may_be_needed;
    *datum = new;
}

static void make_datum(struct realm_tasks *runtime, uint32_t number) {
    struct datum *datum = &data[number];
    datum->words = 1 + draw(MOST_WORDS);
    datum->tiles = 1;
    datum->ends[0] = datum->words;
    datum->handle = (struct realm_data){0, 0, 0};
    wants("datum", realm_data_new(runtime, parallel[number], 8 * (size_t)datum->words, &datum->handle), REALM_TASKS_DONE);
    datum->was_cut = 0;
    if (draw(2)) cut(runtime, datum, 0);
}

/* Behind a wait some data are freed and made anew, and some cut anew. */
static void change_data(struct realm_tasks *runtime) {
    for (uint32_t k = 0; k < DATA; k++) {
        if (!draw(12)) {
            wants("free datum", realm_data_free(runtime, &data[k].handle), REALM_TASKS_DONE);
            make_datum(runtime, k);
        } else if (!draw(6)) {
            cut(runtime, &data[k], 0);
        }
        data[k].was_cut = 0;
    }
}

/* A use that meets none of the task. */
static void draw_part(struct task *task, struct realm_use *use) {
    uint32_t number = draw(DATA), tile = draw(4) ? draw(data[number].tiles) : REALM_WHOLE;
    struct part part = {number, tile, draw(3) == 0, tile == REALM_WHOLE || !tile ? 0 : data[number].ends[tile - 1],
                        tile == REALM_WHOLE ? data[number].words : data[number].ends[tile]};
    for (uint32_t k = 0; k < task->count; k++)
        if (task->parts[k].datum == number && task->parts[k].first < part.last && part.first < task->parts[k].last) return;
    use[task->count] = realm_uses(data[number].handle, tile, part.writes ? REALM_TASK_WRITE : REALM_TASK_READ);
    task->parts[task->count++] = part;
}

static void insert(struct realm_tasks *runtime, uint32_t number, uint32_t fault_in) {
    struct realm_use uses[REALM_MOST_USES];
    struct task *task = &tasks[number];
    *task = (struct task){.seed = ((uint64_t)draw(UINT32_MAX) << 32) + number, .fault_in = fault_in};
    for (uint32_t tries = draw(REALM_MOST_USES + 1); tries; tries--) draw_part(task, uses);
    uint32_t status = draw(2) ? realm_insert(runtime, body, task, uses, task->count, &task->number)
                              : realm_insert_values(runtime, body_of_values, &number, sizeof number, uses, task->count, &task->number);
    wants("insert", status, REALM_TASKS_DONE);
    if (task->number != number) wrong("a task has another number", task->number);
}

/* Waits, and compares all with the sequence. */
static uint64_t wait_for(struct realm_tasks *runtime, uint32_t from, uint32_t to) {
    struct realm_task_fault fault;
    uint32_t found = realm_wait(runtime, &fault), first = run_sequence(from, to), how;
    wants("wait", found, first == to ? REALM_TASKS_DONE : REALM_TASKS_FAULTED);
    if (first < to && (fault.task != first || fault.answer != tasks[first].answer)) wrong("another fault is told", fault.task);
    for (uint32_t t = from; t < to; t++) {
        wants("status", realm_task_status(runtime, t, &how), REALM_TASKS_DONE);
        if (how != tasks[t].state) wrong("a task ended otherwise", t);
    }
    for (uint32_t k = 0; k < DATA; k++)
        if (memcmp(parallel[k], sequential[k], sizeof parallel[k])) wrong("a datum is another", k);
    return first < to;
}

static uint64_t run_program(void) {
    struct realm_tasks runtime = {0};
    struct realm_task_stats stats;
    uint32_t begun = 0, waits_in = 20 + draw(480), fault_in = draw(3) ? 20 + draw(200) : 0;
    uint64_t faults = 0;
    wants("new", realm_tasks_new(draw(9), &runtime), REALM_TASKS_DONE);
    wants("window", realm_tasks_window(&runtime, draw(2) ? 1024 : 1 + draw(draw(2) ? 8 : 400)), REALM_TASKS_DONE);
    for (uint32_t k = 0; k < DATA; k++) make_datum(&runtime, k);
    for (uint32_t k = 0; k < DATA; k++)
        for (uint32_t w = 0; w < MOST_WORDS; w++) parallel[k][w] = sequential[k][w] = draw(UINT32_MAX);
    for (uint32_t t = 0; t < TASKS; t++) {
        uint32_t other = draw(4 * DATA);
        if (other < DATA && !data[other].was_cut) cut(&runtime, &data[other], 1);
        insert(&runtime, t, fault_in);
        if (draw(waits_in) && t + 1 < TASKS) continue;
        faults += wait_for(&runtime, begun, t + 1);
        begun = t + 1;
        change_data(&runtime);
    }
    wants("stats", realm_tasks_stats(&runtime, &stats), REALM_TASKS_DONE);
    if (stats.inserted != TASKS || stats.done + stats.faulted + stats.cancelled != TASKS || stats.data != DATA) wrong("the stats", stats.done);
    wants("free", realm_tasks_free(&runtime), REALM_TASKS_DONE);
    return faults;
}

/* Writes the graph of a window of tasks. */
static int write_graph(void) {
    static uint8_t text[1 << 20];
    struct realm_tasks runtime = {0};
    uint64_t written;
    wants("new", realm_tasks_new(0, &runtime), REALM_TASKS_DONE);
    for (uint32_t k = 0; k < DATA; k++) make_datum(&runtime, k);
    for (uint32_t t = 0; t < TASKS; t++) insert(&runtime, t, 0);
    wants("graph", realm_tasks_graph(&runtime, text, sizeof text, &written), REALM_TASKS_DONE);
    wants("free", realm_tasks_free(&runtime), REALM_TASKS_DONE);
    return fwrite(text, 1, written, stdout) != written;
}

int main(int count, char **words) {
    long programs = count > 1 ? atol(words[1]) : 100;
    uint64_t seed = count > 2 ? strtoull(words[2], 0, 10) : 1, faults = 0;
    state = seed * 0x9e3779b97f4a7c15u + 1;
    if (count > 1 && !strcmp(words[1], "graph")) return write_graph();
    signal(SIGALRM, late);
    for (program = 0; program < programs; program++) {
        alarm(SECONDS_WITHOUT_END);
        state = (seed * 1000003 + (uint64_t)program) * 0x9e3779b97f4a7c15u + 1;
        faults += run_program();
    }
    printf("%ld programs of %d tasks: as one after another; %llu waits told a fault\n", programs, TASKS, (unsigned long long)faults);
    return 0;
}
