/* A hundred steps of a five-point stencil as tasks: bands of rows, each of which waits for its neighbours of the step before alone. The
   result is that of the bands one after another, bit by bit, and the program compares the two, run by run.
   Usage: tasks_stencil SIDE BANDS WORKERS RUNS; the exit status is 0 where they agree. */
#include "in_order.h"

enum { STEPS = 100 };
struct band { const double *from; double *to; uint32_t side, first, last; };

static uint32_t side, bands;

/* One step of the rows from first to before last. The border keeps its cells. */
static uint32_t move_band(void *argument) {
    const struct band *b = (const struct band *)argument;
    for (uint32_t i = b->first; i < b->last; i++)
        for (uint32_t j = 0; j < b->side; j++) {
            const double *at = b->from + (size_t)i * b->side + j;
            int is_border = i == 0 || j == 0 || i + 1 == b->side || j + 1 == b->side;
            b->to[(size_t)i * b->side + j] = is_border ? *at : 0.2 * (*at + at[-1] + at[1] + at[-(long)b->side] + at[b->side]);
        }
    return 0;
}

static void stencil(struct realm_tasks *tasks, double *out) {
    size_t cells = (size_t)side * side;
    uint32_t rows = side / bands;
    double *other = doubles(cells), *grids[2] = {out, other};
    struct realm_data data[2];
    for (size_t k = 0; k < cells; k++) out[k] = (double)(k * 7919 % 1000);
    for (int k = 0; k < 2; k++) data[k] = tiles_of(tasks, grids[k], bands, sizeof(double) * rows * side);
    for (uint32_t s = 0; s < STEPS; s++)
        for (uint32_t b = 0; b < bands; b++) {
            struct band band = {grids[s % 2], grids[(s + 1) % 2], side, b * rows, (b + 1) * rows};
            struct realm_use uses[4] = {realm_writes_tile(data[(s + 1) % 2], b), realm_reads_tile(data[s % 2], b)};
            size_t count = 2;
            if (b > 0) uses[count++] = realm_reads_tile(data[s % 2], b - 1);
            if (b + 1 < bands) uses[count++] = realm_reads_tile(data[s % 2], b + 1);
            in_order(tasks, move_band, &band, sizeof band, uses, count);
        }
    wait_here(tasks);
    if (tasks) done("free", realm_data_free(tasks, &data[1]));
    free(other);
}

int main(int count, char **words) {
    if (count != 5) return fprintf(stderr, "usage: tasks_stencil SIDE BANDS WORKERS RUNS\n"), 2;
    side = (uint32_t)atoi(words[1]);
    bands = (uint32_t)atoi(words[2]);
    if (!bands || side % bands || side < bands) return fprintf(stderr, "tasks_stencil: BANDS has to divide SIDE\n"), 2;
    return compare_runs(stencil, (size_t)side * side, (uint32_t)atoi(words[3]), atol(words[4]));
}
