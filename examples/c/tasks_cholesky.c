/* A tiled Cholesky factorisation as tasks: the loops of the sequential program, with what each call reads and writes. The result is that
   of the calls one after another, bit by bit, and the program compares the two, run by run.
   Usage: tasks_cholesky SIDE TILE WORKERS RUNS; the exit status is 0 where they agree. */
#include "in_order.h"
#include "tiles.h"

struct tile_call { uint32_t n; const double *a, *b; double *c; };

static uint32_t run_potrf(void *argument) {
    struct tile_call *call = (struct tile_call *)argument;
    potrf(call->n, call->c);
    return 0;
}

static uint32_t run_trsm(void *argument) {
    struct tile_call *call = (struct tile_call *)argument;
    trsm(call->n, call->a, call->c);
    return 0;
}

static uint32_t run_gemm(void *argument) {
    struct tile_call *call = (struct tile_call *)argument;
    gemm(call->n, call->a, call->b, call->c);
    return 0;
}

static uint32_t side, of_tile;

/* The tile in row i and column j of a datum that is the matrix. */
static struct realm_use reads(const struct matrix *m, struct realm_data cells, uint32_t i, uint32_t j) { return realm_reads_tile(cells, i * m->tiles + j); }
static struct realm_use writes(const struct matrix *m, struct realm_data cells, uint32_t i, uint32_t j) { return realm_writes_tile(cells, i * m->tiles + j); }

static void step(struct realm_tasks *tasks, const struct matrix *m, struct realm_data cells, uint32_t k) {
    struct tile_call call = {m->side, 0, 0, tile(m, k, k)};
    struct realm_use uses[3] = {writes(m, cells, k, k)};
    in_order(tasks, run_potrf, &call, sizeof call, uses, 1);
    for (uint32_t i = k + 1; i < m->tiles; i++) {
        struct tile_call solve = {m->side, tile(m, k, k), 0, tile(m, i, k)};
        uses[0] = reads(m, cells, k, k);
        uses[1] = writes(m, cells, i, k);
        in_order(tasks, run_trsm, &solve, sizeof solve, uses, 2);
    }
    for (uint32_t i = k + 1; i < m->tiles; i++)
        for (uint32_t j = k + 1; j <= i; j++) {
            struct tile_call update = {m->side, tile(m, i, k), tile(m, j, k), tile(m, i, j)};
            uses[0] = writes(m, cells, i, j);
            uses[1] = reads(m, cells, i, k);
            uses[2] = reads(m, cells, j, k);
            in_order(tasks, run_gemm, &update, sizeof update, uses, i == j ? 2 : 3);
        }
}

static void factorise_in_order(struct realm_tasks *tasks, double *out) {
    struct matrix m = {side / of_tile, of_tile, out};
    struct realm_data cells = tiles_of(tasks, out, m.tiles * m.tiles, sizeof(double) * of_tile * of_tile);
    fill(&m);
    for (uint32_t k = 0; k < m.tiles; k++) step(tasks, &m, cells, k);
    wait_here(tasks);
}

int main(int count, char **words) {
    if (count != 5) return fprintf(stderr, "usage: tasks_cholesky SIDE TILE WORKERS RUNS\n"), 2;
    side = (uint32_t)atoi(words[1]);
    of_tile = (uint32_t)atoi(words[2]);
    if (!of_tile || side % of_tile || side < of_tile) return fprintf(stderr, "tasks_cholesky: TILE has to divide SIDE\n"), 2;
    return compare_runs(factorise_in_order, (size_t)side * side, (uint32_t)atoi(words[3]), atol(words[4]));
}
