/* Times tasks by each library in turn. Usage: tasks THREADS ROUNDS [LIBRARY]; bench/tasks builds and calls it. */
#define _GNU_SOURCE
#include "beside.h"
#include "realm_tasks.h"
#include <omp.h>
#include <stdio.h>
#include <stdlib.h>
#include <string.h>
#include <time.h>

enum { MOST_ROUNDS = 101, TILES = 16, MANY = 8192, FEW = 2000, MICROSECONDS = 100 };

static struct realm_tasks tasks;
static struct realm_data *data;
static uint8_t *cells, *dependences;
static int thread_count;

static double seconds_of(clockid_t clock) {
    struct timespec at;
    clock_gettime(clock, &at);
    return (double)at.tv_sec + (double)at.tv_nsec * 1e-9;
}

static int begin_realm(int threads, uint32_t most) {
    cells = malloc(64 * (size_t)most);
    data = calloc(most, sizeof *data);
    if (!cells || !data || realm_tasks_new((uint32_t)threads - 1, &tasks)) return 1;
    for (uint32_t k = 0; k < most; k++)
        if (realm_data_new(&tasks, cells + 64 * (size_t)k, 64, &data[k])) return 1;
    return 0;
}

static uint32_t body(void *argument) {
    bench_body((long)(intptr_t)argument);
    return 0;
}

static void run_realm(const struct bench_graph *graph) {
    uint64_t number;
    for (uint32_t t = 0; t < graph->tasks; t++) {
        const struct bench_task *task = &graph->task[t];
        struct realm_use uses[3];
        for (uint32_t k = 0; k < task->uses; k++) uses[k] = realm_uses(data[task->datum[k]], REALM_WHOLE, k == 0);
        if (realm_insert(&tasks, body, (void *)(intptr_t)graph->steps, uses, task->uses, &number)) exit(1);
    }
    if (realm_wait(&tasks, 0)) exit(1);
}

static void end_realm(void) {
    realm_tasks_free(&tasks);
    free(data);
    free(cells);
}

const struct bench_library bench_realm = {"realm", begin_realm, run_realm, end_realm, 0, 0};

static int begin_openmp(int threads, uint32_t most) {
    thread_count = threads;
    dependences = malloc(64 * (size_t)most);
    return !dependences;
}

static void run_openmp(const struct bench_graph *graph) {
    long steps = graph->steps;
#pragma omp parallel num_threads(thread_count)
#pragma omp single
    for (uint32_t t = 0; t < graph->tasks; t++) {
        const struct bench_task *task = &graph->task[t];
        uint8_t *a = dependences + 64 * (size_t)task->datum[0], *b = dependences + 64 * (size_t)task->datum[1], *c = dependences + 64 * (size_t)task->datum[2];
        (void)a, (void)b, (void)c;
        if (task->uses == 0) {
#pragma omp task
            bench_body(steps);
        } else if (task->uses == 1) {
#pragma omp task depend(inout : a[0])
            bench_body(steps);
        } else if (task->uses == 2) {
#pragma omp task depend(inout : a[0]) depend(in : b[0])
            bench_body(steps);
        } else {
#pragma omp task depend(inout : a[0]) depend(in : b[0], c[0])
            bench_body(steps);
        }
    }
}

static void end_openmp(void) { free(dependences); }

const struct bench_library bench_openmp = {"OpenMP (gcc)", begin_openmp, run_openmp, end_openmp, 0, 0};

/* The edges of a graph: what each task waits for by each of its data. */
static uint32_t find_edges(const struct bench_graph *graph, uint32_t *edges) {
    uint32_t *writer = calloc(graph->data, sizeof *writer), count = 0;
    for (uint32_t t = 0; t < graph->tasks; t++) {
        const struct bench_task *task = &graph->task[t];
        for (uint32_t k = 0; k < task->uses; k++) {
            if (writer[task->datum[k]]) edges[2 * count] = writer[task->datum[k]] - 1, edges[2 * count++ + 1] = t;
            if (k) continue;
            /* (of these graphs no datum is written once it was read, but by its own chain) */
            writer[task->datum[0]] = t + 1;
        }
    }
    free(writer);
    return count;
}

static uint32_t tile_of(uint32_t i, uint32_t j) { return i * TILES + j; }

static uint32_t make_cholesky(struct bench_task *task) {
    uint32_t n = 0;
    for (uint32_t k = 0; k < TILES; k++) {
        task[n++] = (struct bench_task){1, {tile_of(k, k), 0, 0}};
        for (uint32_t i = k + 1; i < TILES; i++) task[n++] = (struct bench_task){2, {tile_of(i, k), tile_of(k, k), 0}};
        for (uint32_t i = k + 1; i < TILES; i++)
            for (uint32_t j = k + 1; j <= i; j++) task[n++] = (struct bench_task){i == j ? 2 : 3, {tile_of(i, j), tile_of(i, k), tile_of(j, k)}};
    }
    return n;
}

static struct bench_graph make_graph(const char *kind, uint32_t count, long steps) {
    struct bench_task *task = malloc(MANY * sizeof *task);
    uint32_t *edges = malloc(6 * MANY * sizeof *edges);
    if (!strcmp(kind, "cholesky")) count = make_cholesky(task);
    else
        for (uint32_t t = 0; t < count; t++) task[t] = (struct bench_task){1, {strcmp(kind, "chain") ? t : 0, 0, 0}};
    struct bench_graph graph = {count, MANY, task, edges, 0, steps};
    graph.edge_count = find_edges(&graph, edges);
    return graph;
}

static long steps_for(double seconds) {
    long steps = 1000000;
    bench_body(steps);
    double begun = seconds_of(CLOCK_THREAD_CPUTIME_ID);
    bench_body(steps);
    return (long)((double)steps * seconds / (seconds_of(CLOCK_THREAD_CPUTIME_ID) - begun));
}

static int by_number(const void *a, const void *b) {
    double x = *(const double *)a, y = *(const double *)b;
    return (x > y) - (x < y);
}

static double median(double *list, int count) {
    qsort(list, (size_t)count, sizeof *list, by_number);
    return list[count / 2];
}

int main(int count, char **words) {
    static double wall[8][MOST_ROUNDS], used[8][MOST_ROUNDS];
    const struct bench_library *all[] = {
        &bench_realm, &bench_openmp,
#ifdef HAS_TBB
        &bench_tbb,
#endif
#ifdef HAS_STARPU
        &bench_starpu,
#endif
    };
    if (count < 3) return fprintf(stderr, "usage: tasks THREADS ROUNDS [LIBRARY]\n"), 2;
    int threads = atoi(words[1]), rounds = atoi(words[2]), libraries = sizeof all / sizeof *all;
    if (threads < 1 || rounds < 1 || rounds > MOST_ROUNDS) return 2;
    long steps = steps_for(MICROSECONDS * 1e-6);
    struct bench_graph graphs[] = {make_graph("chain", MANY, 0), make_graph("apart", MANY, 0), make_graph("cholesky", 0, 0),
                                   make_graph("chain", FEW, steps), make_graph("apart", FEW, steps), make_graph("cholesky", 0, steps)};
    const char *names[] = {"chain, empty", "apart, empty", "cholesky, empty", "chain, 100 us", "apart, 100 us", "cholesky, 100 us"};
    if (count > 3) {
        int chosen = 0;
        for (int k = 0; k < libraries; k++)
            if (!strcmp(all[k]->name, words[3])) all[chosen++] = all[k];
        libraries = chosen;
    }
    for (int k = 0; k < libraries; k++)
        if (all[k]->begin(threads, MANY)) return fprintf(stderr, "tasks: %s does not begin\n", all[k]->name), 1;
    printf("%d threads, medians of %d rounds in turn: microseconds a task by the clock, and of processors\n", threads, rounds);
    for (size_t g = 0; g < sizeof graphs / sizeof *graphs; g++) {
        for (int round = -1; round < rounds; round++)
            for (int k = 0; k < libraries; k++) {
                /* (threads of the one before spin for some milliseconds) */
                nanosleep(&(struct timespec){0, 20000000}, 0);
                if (all[k]->rouse) all[k]->rouse();
                double begun = seconds_of(CLOCK_MONOTONIC), used_before = seconds_of(CLOCK_PROCESS_CPUTIME_ID);
                all[k]->run(&graphs[g]);
                double ended = seconds_of(CLOCK_MONOTONIC), used_after = seconds_of(CLOCK_PROCESS_CPUTIME_ID);
                if (all[k]->rest) all[k]->rest();
                if (round < 0) continue;
                wall[k][round] = ended - begun;
                used[k][round] = used_after - used_before;
            }
        printf("%-17s", names[g]);
        for (int k = 0; k < libraries; k++)
            printf("  %s %.3f, %.3f", all[k]->name, 1e6 * median(wall[k], rounds) / graphs[g].tasks, 1e6 * median(used[k], rounds) / graphs[g].tasks);
        printf("\n");
        fflush(stdout);
    }
    for (int k = 0; k < libraries; k++) all[k]->end();
    return 0;
}
