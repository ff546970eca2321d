/* The tiles of a matrix, the functions of a Cholesky factorisation on them, and the graph of their calls, in C and C++. */
#ifndef TILES_H
#define TILES_H
#include <math.h>
#include <stdint.h>
#include <stdio.h>
#include <stdlib.h>

/* Tile by tile, each tile by rows. */
struct matrix { uint32_t tiles, side; double *cells; };

static inline double *tile(const struct matrix *m, uint64_t i, uint64_t j) {
    return m->cells + (i * m->tiles + j) * m->side * m->side;
}

static inline void potrf(uint32_t n, double *a) {
    for (uint32_t j = 0; j < n; j++) {
        for (uint32_t k = 0; k < j; k++)
            for (uint32_t i = j; i < n; i++) a[i * n + j] -= a[i * n + k] * a[j * n + k];
        double root = sqrt(a[j * n + j]);
        for (uint32_t i = j; i < n; i++) a[i * n + j] /= root;
        for (uint32_t i = 0; i < j; i++) a[i * n + j] = 0;
    }
}

static inline void trsm(uint32_t n, const double *a, double *b) {
    for (uint32_t i = 0; i < n; i++)
        for (uint32_t j = 0; j < n; j++) {
            for (uint32_t k = 0; k < j; k++) b[i * n + j] -= b[i * n + k] * a[j * n + k];
            b[i * n + j] /= a[j * n + j];
        }
}

/* c -= a b^T; of a tile on the diagonal a and b are one. */
static inline void gemm(uint32_t n, const double *__restrict a, const double *__restrict b, double *__restrict c) {
    for (uint32_t i = 0; i < n; i++)
        for (uint32_t j = 0; j < n; j++) {
            double sum = 0;
            for (uint32_t k = 0; k < n; k++) sum += a[i * n + k] * b[j * n + k];
            c[i * n + j] -= sum;
        }
}

/* The same functions, one after another. */
static inline void factorise(const struct matrix *m) {
    for (uint32_t k = 0; k < m->tiles; k++) {
        potrf(m->side, tile(m, k, k));
        for (uint32_t i = k + 1; i < m->tiles; i++) trsm(m->side, tile(m, k, k), tile(m, i, k));
        for (uint32_t i = k + 1; i < m->tiles; i++)
            for (uint32_t j = k + 1; j <= i; j++) gemm(m->side, tile(m, i, k), tile(m, j, k), tile(m, i, j));
    }
}

/* A call's name has the letter of its function and its values; the event that a tile's last change is. */
static inline void put_change(FILE *to, uint32_t i, uint32_t j, uint32_t k) {
    if (k) fprintf(to, " g%u_%u_%u", i, j, k - 1);
}

static inline void put_step(FILE *to, uint32_t tiles, uint32_t k) {
    fprintf(to, "p%u = call potrf %u write A.x t%u_%u%s", k, k, k, k, k ? " on" : "");
    put_change(to, k, k, k);
    for (uint32_t i = k + 1; i < tiles; i++) {
        fprintf(to, "\ns%u_%u = call trsm %u %u read A.x t%u_%u write A.x t%u_%u on p%u", i, k, i, k, k, k, i, k, k);
        put_change(to, i, k, k);
    }
    for (uint32_t i = k + 1; i < tiles; i++)
        for (uint32_t j = k + 1; j <= i; j++) {
            fprintf(to, "\ng%u_%u_%u = call gemm %u %u %u read A.x t%u_%u", i, j, k, i, j, k, i, k);
            if (j < i) fprintf(to, " read A.x t%u_%u", j, k);
            fprintf(to, " write A.x t%u_%u on s%u_%u", i, j, i, k);
            if (j < i) fprintf(to, " s%u_%u", j, k);
            put_change(to, i, j, k);
        }
    fputc('\n', to);
}

/* The graph: a point of the column stands for each tile. The library keeps no cells of it. */
static inline char *graph_of(uint32_t tiles, size_t *length) {
    char *text;
    FILE *to = open_memstream(&text, length);
    fprintf(to, "realm 3\nspace all 0..%u\n", tiles * tiles - 1);
    for (uint32_t i = 0; i < tiles; i++)
        for (uint32_t j = 0; j <= i; j++) fprintf(to, "space t%u_%u %u..%u\n", i, j, i * tiles + j, i * tiles + j);
    fprintf(to, "data A all x\n");
    for (uint32_t k = 0; k < tiles; k++) put_step(to, tiles, k);
    fprintf(to, "end\n");
    fclose(to);
    return text;
}

/* Symmetric, and great on the diagonal. */
static inline void fill(const struct matrix *m) {
    uint32_t n = m->tiles * m->side;
    for (uint32_t i = 0; i < n; i++)
        for (uint32_t j = 0; j < n; j++) {
            double cell = i == j ? n : 1.0 / (1 + (i > j ? i - j : j - i));
            tile(m, i / m->side, j / m->side)[i % m->side * m->side + j % m->side] = cell;
        }
}
#endif
