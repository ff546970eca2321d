/* Conjugate gradient as tasks, over vectors that are cut into tiles: products with a matrix of three diagonals, sums of parts, and updates. The
   sums are added up in one order, so the result is that of the bodies one after another, bit by bit, and the program compares the two, run by run.
   Usage: tasks_gradient CELLS TILES WORKERS RUNS; the exit status is 0 where they agree. */
#include "in_order.h"

enum { MOST_STEPS = 60, STEPS_A_WAIT = 10, MOST_TILES = 64 };

/* The vectors, the parts of a sum, a part a tile, and the numbers of the method: rr, alpha, beta. */
struct vectors { uint32_t cells, tiles; double *x, *r, *p, *q, *part, *number; };
struct handles { struct realm_data x, r, p, q, part, number; };
struct share { struct vectors v; uint32_t tile; };

static uint32_t cells, tiles;
static uint32_t first_of(const struct share *s) { return s->v.cells / s->v.tiles * s->tile; }
static uint32_t end_of(const struct share *s) { return first_of(s) + s->v.cells / s->v.tiles; }

/* q = A p, and p q of the tile */
static uint32_t multiply(void *argument) {
    const struct share *s = (const struct share *)argument;
    const double *p = s->v.p;
    double sum = 0;
    for (uint32_t i = first_of(s); i < end_of(s); i++) {
        s->v.q[i] = 2.001 * p[i] - (i ? p[i - 1] : 0) - (i + 1 < s->v.cells ? p[i + 1] : 0);
        sum += p[i] * s->v.q[i];
    }
    s->v.part[s->tile] = sum;
    return 0;
}

static double sum_of(const struct vectors *v) {
    double sum = 0;
    for (uint32_t k = 0; k < v->tiles; k++) sum += v->part[k];
    return sum;
}

static uint32_t find_alpha(void *argument) {
    const struct vectors *v = &((const struct share *)argument)->v;
    v->number[1] = v->number[0] / sum_of(v);
    return 0;
}

/* x += alpha p, r -= alpha q, and r r of the tile */
static uint32_t move(void *argument) {
    const struct share *s = (const struct share *)argument;
    double sum = 0;
    for (uint32_t i = first_of(s); i < end_of(s); i++) {
        s->v.x[i] += s->v.number[1] * s->v.p[i];
        s->v.r[i] -= s->v.number[1] * s->v.q[i];
        sum += s->v.r[i] * s->v.r[i];
    }
    s->v.part[s->tile] = sum;
    return 0;
}

static uint32_t find_beta(void *argument) {
    const struct vectors *v = &((const struct share *)argument)->v;
    double sum = sum_of(v);
    v->number[2] = sum / v->number[0];
    v->number[0] = sum;
    return 0;
}

/* p = r + beta p */
static uint32_t turn(void *argument) {
    const struct share *s = (const struct share *)argument;
    for (uint32_t i = first_of(s); i < end_of(s); i++) s->v.p[i] = s->v.r[i] + s->v.number[2] * s->v.p[i];
    return 0;
}

/* A task for each tile, which accesses that tile of each of these data. */
static void each_tile(struct realm_tasks *tasks, const struct vectors *v, const struct handles *h, uint32_t (*body)(void *)) {
    for (uint32_t k = 0; k < v->tiles; k++) {
        struct share share = {*v, k};
        struct realm_use uses[8];
        size_t count = 0;
        if (body == multiply) {
            uses[count++] = realm_writes_tile(h->q, k);
            if (k > 0) uses[count++] = realm_reads_tile(h->p, k - 1);
            if (k + 1 < v->tiles) uses[count++] = realm_reads_tile(h->p, k + 1);
            uses[count++] = realm_reads_tile(h->p, k);
            uses[count++] = realm_writes_tile(h->part, k);
        } else if (body == move) {
            uses[count++] = realm_writes_tile(h->x, k);
            uses[count++] = realm_writes_tile(h->r, k);
            uses[count++] = realm_reads_tile(h->p, k);
            uses[count++] = realm_reads_tile(h->q, k);
            uses[count++] = realm_writes_tile(h->part, k);
            uses[count++] = realm_reads(h->number);
        } else {
            uses[count++] = realm_writes_tile(h->p, k);
            uses[count++] = realm_reads_tile(h->r, k);
            uses[count++] = realm_reads(h->number);
        }
        in_order(tasks, body, &share, sizeof share, uses, count);
    }
}

static void find_number(struct realm_tasks *tasks, const struct vectors *v, const struct handles *h, uint32_t (*body)(void *)) {
    struct share share = {*v, 0};
    struct realm_use uses[2] = {realm_writes(h->number), realm_reads(h->part)};
    in_order(tasks, body, &share, sizeof share, uses, 2);
}

static void iterate(struct realm_tasks *tasks, const struct vectors *v, const struct handles *h) {
    for (int step = 1; step <= MOST_STEPS; step++) {
        each_tile(tasks, v, h, multiply);
        find_number(tasks, v, h, find_alpha);
        each_tile(tasks, v, h, move);
        find_number(tasks, v, h, find_beta);
        each_tile(tasks, v, h, turn);
        if (step % STEPS_A_WAIT) continue;
        wait_here(tasks);
        if (v->number[0] < 1e-20) return;
    }
}

static void gradient(struct realm_tasks *tasks, double *out) {
    double *room = doubles(3 * (size_t)cells + tiles + 3);
    struct vectors v = {cells, tiles, out, room, room + cells, room + 2 * (size_t)cells, room + 3 * (size_t)cells, room + 3 * (size_t)cells + tiles};
    size_t bytes = sizeof(double) * (cells / tiles);
    struct handles h = {tiles_of(tasks, v.x, tiles, bytes),      tiles_of(tasks, v.r, tiles, bytes), tiles_of(tasks, v.p, tiles, bytes),
                        tiles_of(tasks, v.q, tiles, bytes),      tiles_of(tasks, v.part, tiles, sizeof(double)),
                        tiles_of(tasks, v.number, 1, 3 * sizeof(double))};
    for (uint32_t i = 0; i < cells; i++) {
        v.r[i] = v.p[i] = 1.0 / (1 + i % 17);
        v.number[0] += v.r[i] * v.r[i];
    }
    iterate(tasks, &v, &h);
    struct realm_data *inner[] = {&h.r, &h.p, &h.q, &h.part, &h.number};
    for (int k = 0; tasks && k < 5; k++) done("free", realm_data_free(tasks, inner[k]));
    free(room);
}

int main(int count, char **words) {
    if (count != 5) return fprintf(stderr, "usage: tasks_gradient CELLS TILES WORKERS RUNS\n"), 2;
    cells = (uint32_t)atoi(words[1]);
    tiles = (uint32_t)atoi(words[2]);
    if (!tiles || tiles > MOST_TILES || cells % tiles || cells < tiles) return fprintf(stderr, "tasks_gradient: TILES has to divide CELLS\n"), 2;
    return compare_runs(gradient, cells, (uint32_t)atoi(words[3]), atol(words[4]));
}
