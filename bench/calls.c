/* The factorisation of examples/c/cholesky.c by calls beside the same functions as tasks of OpenMP, in turn: of each the median of
   the rounds in seconds. Empty bodies and bodies that sleep are timed too.
   Usage: calls SIDE TILE THREADS ROUNDS */
#define main example_main
#include "../examples/c/cholesky.c"
#undef main
#include <omp.h>
#include <time.h>

static double now(void) {
    struct timespec at;
    clock_gettime(CLOCK_MONOTONIC, &at);
    return at.tv_sec + at.tv_nsec * 1e-9;
}

static void by_tasks(const struct matrix *m, int threads) {
    uint32_t n = m->side;
    (void)n;
#pragma omp parallel num_threads(threads)
#pragma omp single
    for (uint32_t k = 0; k < m->tiles; k++) {
        double *d = tile(m, k, k);
#pragma omp task depend(inout : d[0])
        potrf(n, d);
        for (uint32_t i = k + 1; i < m->tiles; i++) {
            double *b = tile(m, i, k);
#pragma omp task depend(in : d[0]) depend(inout : b[0])
            trsm(n, d, b);
        }
        for (uint32_t i = k + 1; i < m->tiles; i++)
            for (uint32_t j = k + 1; j <= i; j++) {
                double *a = tile(m, i, k), *b = tile(m, j, k), *c = tile(m, i, j);
#pragma omp task depend(in : a[0], b[0]) depend(inout : c[0])
                gemm(n, a, b, c);
            }
    }
}

static int by_number(const void *a, const void *b) {
    double x = *(const double *)a, y = *(const double *)b;
    return (x > y) - (x < y);
}

static double median(double *seconds, int count) {
    qsort(seconds, count, sizeof *seconds, by_number);
    return seconds[count / 2];
}

static uint32_t nothing(const struct realm_call *call, void *context) { return (void)call, (void)context, 0; }

static uint32_t doze(const struct realm_call *call, void *context) {
    (void)call, (void)context;
    nanosleep(&(struct timespec){0, 50000000}, 0);
    return 0;
}

/* The seconds of a run of so many calls, each with these accesses; %u stands for its number. */
static double calls_take(uint32_t count, const char *accesses, uint32_t (*body)(const struct realm_call *, void *), uint32_t threads) {
    struct realm_body bodies[] = {{"body", body, 0}};
    struct realm_run run = {0};
    struct realm_verdict verdict;
    size_t length;
    char *text;
    FILE *to = open_memstream(&text, &length);
    fprintf(to, "realm 3\nspace all 0..%u\n", count - 1);
    for (uint32_t i = 0; i < count; i++) fprintf(to, "space s%u %u..%u\n", i, i, i);
    fprintf(to, "data A all x\n");
    for (uint32_t i = 0; i < count; i++) {
        fprintf(to, "c%u = call body ", i);
        fprintf(to, accesses, i);
        fputc('\n', to);
    }
    fprintf(to, "end\n");
    fclose(to);
    if (realm_run_new((const uint8_t *)text, length, 0, &run, &verdict)) exit(1);
    double begun = now();
    if (realm_run_all_with(&run, threads, bodies, 1)) exit(1);
    double seconds = now() - begun;
    realm_run_free(&run);
    free(text);
    return seconds;
}

int main(int count, char **words) {
    if (count != 5) return fprintf(stderr, "usage: calls SIDE TILE THREADS ROUNDS\n"), 2;
    uint32_t side = atoi(words[1]), of_tile = atoi(words[2]), threads = atoi(words[3]);
    int rounds = atoi(words[4]);
    struct matrix m = {side / of_tile, of_tile, malloc(sizeof(double) * side * side)};
    double *seconds[3];
    for (int way = 0; way < 3; way++) seconds[way] = malloc(rounds * sizeof **seconds);
    for (int round = 0; round < rounds; round++)
        for (int way = 0; way < 3; way++) {
            fill(&m);
            double begun = now();
            if (way == 0) factorise(&m);
            else if (way == 1) by_tasks(&m, threads);
            else if (run_graph(&m, threads)) return 1;
            seconds[way][round] = now() - begun;
        }
    double one = median(seconds[0], rounds), tasks = median(seconds[1], rounds), calls = median(seconds[2], rounds);
    printf("one thread %.3f s, OpenMP %.3f s, calls %.3f s: speed-up %.2f and %.2f, ratio %.3f\n", one, tasks, calls, one / tasks, one / calls, tasks / calls);
    printf("8,000 empty bodies: %.2f microseconds each by 1 thread, %.2f by %u\n", calls_take(8000, "write A.x s%u", nothing, 1) / 8e-3,
        calls_take(8000, "write A.x s%u", nothing, threads) / 8e-3, threads);
    printf("eight bodies of 50 ms by %u threads: readers of one column %.0f ms, disjoint tiles of one column %.0f ms\n", threads,
        1000 * calls_take(8, "read A.x all", doze, threads), 1000 * calls_take(8, "write A.x s%u", doze, threads));
    return 0;
}
