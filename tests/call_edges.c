/* The factorisation of examples/c/cholesky.c where the thread sanitizer knows of no order but the waits of the graph's text: the lock
   of the loop is hidden from it (hidden_lock.h), and a body begins behind the ends of what its operation waits for. So it reports
   two bodies that use one tile where no wait orders them, whichever schedule there was.
   Usage: call_edges SIDE TILE THREADS [PLANT]. PLANT is tile, where each gemm changes a tile that it does not declare; or wait, where
   the first wait of each gemm is not told, as if it did not stand in the text. Then the sanitizer has to report it. */
#define main example_main
#include "../examples/c/cholesky.c"
#undef main
#include <sanitizer/tsan_interface.h>

enum { MOST_OPERATIONS = 4096, MOST_WAITS = 4 };

/* What stands in the text of an operation, and the place by which its end is told. */
static struct operation { char name[24]; uint32_t waits[MOST_WAITS], count; char end; } operations[MOST_OPERATIONS];
static uint32_t count;
static int changes_another_tile, forgets_a_wait;

static uint32_t number_of(const char *name) {
    for (uint32_t i = 0; i < count; i++)
        if (!strcmp(operations[i].name, name)) return i;
    fprintf(stderr, "call_edges: there is no operation %s\n", name);
    exit(2);
}

/* Reads an operation, and what stands behind its `on`. */
static void read_operation(char *line) {
    char *words = strstr(line, " on "), *rest, *word;
    struct operation *read = &operations[count];
    sscanf(line, "%23s", read->name);
    for (word = words ? strtok_r(words + 4, " ", &rest) : 0; word; word = strtok_r(0, " ", &rest)) read->waits[read->count++] = number_of(word);
    count++;
}

static void read_text(char *text) {
    char *rest;
    for (char *line = strtok_r(text, "\n", &rest); line; line = strtok_r(0, "\n", &rest))
        if (strstr(line, " = call ")) read_operation(line);
}

/* What a body answers, which is passed on. */
typedef __typeof__(((struct realm_body *)0)->run(0, 0)) answer;

struct told { answer (*run)(const struct realm_call *, void *); struct matrix *m; };

static void tell_end(struct operation **of) { __tsan_release(&(*of)->end); }

/* A body behind the ends of what its operation waits for, and before its own end. */
static answer run_told(const struct realm_call *call, void *context) {
    const struct told *told = context;
    struct operation *of __attribute__((cleanup(tell_end))) = &operations[call->operation];
    for (uint32_t k = forgets_a_wait && told->run == run_gemm; k < of->count; k++) __tsan_acquire(&operations[of->waits[k]].end);
    if (changes_another_tile && told->run == run_gemm) *tile(told->m, 0, told->m->tiles - 1) += 1;
    return told->run(call, told->m);
}

static uint32_t run_edges(struct matrix *m, uint32_t threads, const char *plant) {
    struct told potrf = {run_potrf, m}, trsm = {run_trsm, m}, gemm = {run_gemm, m};
    const struct realm_body bodies[] = {{"potrf", run_told, &potrf}, {"trsm", run_told, &trsm}, {"gemm", run_told, &gemm}};
    struct realm_run run = {0};
    struct realm_verdict verdict;
    size_t length;
    char *text = graph_of(m->tiles, &length);
    uint32_t status = realm_run_new((const uint8_t *)text, length, 0, &run, &verdict);
    read_text(text);
    changes_another_tile = plant && !strcmp(plant, "tile");
    forgets_a_wait = plant && !strcmp(plant, "wait");
    if (!status) status = realm_run_all_with(&run, threads, bodies, sizeof bodies / sizeof *bodies);
    realm_run_free(&run);
    free(text);
    return status;
}

int main(int words, char **word) {
    if (words != 4 && words != 5) return fprintf(stderr, "usage: call_edges SIDE TILE THREADS [PLANT]\n"), 2;
    uint32_t side = atoi(word[1]), of_tile = atoi(word[2]);
    size_t size = sizeof(double) * side * side;
    struct matrix one = {side / of_tile, of_tile, malloc(size)}, many = {side / of_tile, of_tile, malloc(size)};
    fill(&one);
    fill(&many);
    factorise(&one);
    uint32_t status = run_edges(&many, atoi(word[3]), words == 5 ? word[4] : 0);
    if (status) return fprintf(stderr, "call_edges: the run was refused\n"), 1;
    if (words == 4 && memcmp(one.cells, many.cells, size)) return fprintf(stderr, "call_edges: another result\n"), 1;
    free(one.cells);
    free(many.cells);
    return 0;
}
