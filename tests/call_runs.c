/* The factorisation of examples/c/cholesky.c again and again by 1 to 8 threads in turn. Each time the matrix is that of the same
   functions called one after another, bit by bit.
   Usage: call_runs SIDE TILE RUNS */
#define main example_main
#include "../examples/c/cholesky.c"
#undef main

int main(int count, char **words) {
    if (count != 4) return fprintf(stderr, "usage: call_runs SIDE TILE RUNS\n"), 2;
    uint32_t side = atoi(words[1]), of_tile = atoi(words[2]), runs = atoi(words[3]);
    size_t size = sizeof(double) * side * side;
    struct matrix one = {side / of_tile, of_tile, malloc(size)}, many = {side / of_tile, of_tile, malloc(size)};
    fill(&one);
    factorise(&one);
    for (uint32_t i = 0; i < runs; i++) {
        fill(&many);
        if (run_graph(&many, 1 + i % 8)) return fprintf(stderr, "call_runs: run %u was refused\n", i), 1;
        if (memcmp(one.cells, many.cells, size)) return fprintf(stderr, "call_runs: run %u by %u threads has another result\n", i, 1 + i % 8), 1;
    }
    free(one.cells);
    free(many.cells);
    printf("%u runs of a matrix of %u in tiles of %u, by 1 to 8 threads: the same, bit by bit\n", runs, side, of_tile);
    return 0;
}
