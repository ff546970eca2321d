/* A tiled Cholesky factorisation of the program's own matrix. The graph names the tiles that each call reads and writes; the
   functions of tiles.h are the bodies, and threads of the library run them side by side. The result is that of the same functions
   called one after another, bit by bit, and the program compares the two.
   Usage: cholesky SIDE TILE THREADS; the exit status is 0 where they agree. */
#include "realm.h"
#include "tiles.h"
#include <string.h>

/* The bodies: the values of a call are the tile that it writes, and the column of the tiles that it reads. */
static uint32_t run_potrf(const struct realm_call *call, void *context) {
    const struct matrix *m = context;
    potrf(m->side, tile(m, call->value[0], call->value[0]));
    return 0;
}

static uint32_t run_trsm(const struct realm_call *call, void *context) {
    const struct matrix *m = context;
    trsm(m->side, tile(m, call->value[1], call->value[1]), tile(m, call->value[0], call->value[1]));
    return 0;
}

static uint32_t run_gemm(const struct realm_call *call, void *context) {
    const struct matrix *m = context;
    uint64_t i = call->value[0], j = call->value[1], k = call->value[2];
    gemm(m->side, tile(m, i, k), tile(m, j, k), tile(m, i, j));
    return 0;
}

/* Performs the graph by threads. The number of what was answered, 0 for done. */
static uint32_t run_graph(const struct matrix *m, uint32_t threads) {
    const struct realm_body bodies[] = {{"potrf", run_potrf, (void *)m}, {"trsm", run_trsm, (void *)m}, {"gemm", run_gemm, (void *)m}};
    struct realm_run run = {0};
    struct realm_verdict verdict;
    size_t length;
    char *text = graph_of(m->tiles, &length);
    uint32_t status = realm_run_new((const uint8_t *)text, length, 0, &run, &verdict);
    if (!status) status = realm_run_all_with(&run, threads, bodies, sizeof bodies / sizeof *bodies);
    realm_run_free(&run);
    free(text);
    return status;
}

int main(int count, char **words) {
    if (count != 4) return fprintf(stderr, "usage: cholesky SIDE TILE THREADS\n"), 2;
    uint32_t side = atoi(words[1]), of_tile = atoi(words[2]), threads = atoi(words[3]);
    if (!of_tile || side % of_tile || side < of_tile) return fprintf(stderr, "cholesky: TILE has to divide SIDE\n"), 2;
    size_t size = sizeof(double) * side * side;
    struct matrix one = {side / of_tile, of_tile, malloc(size)}, many = {side / of_tile, of_tile, malloc(size)};
    if (!one.cells || !many.cells) return fprintf(stderr, "cholesky: out of memory\n"), 7;
    fill(&one);
    fill(&many);
    factorise(&one);
    uint32_t status = run_graph(&many, threads);
    int differ = status || memcmp(one.cells, many.cells, size);
    printf("%s\n", status ? "the run was refused" : differ ? "another result" : "the same, bit by bit");
    free(one.cells);
    free(many.cells);
    return differ != 0;
}
