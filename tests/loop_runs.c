/* Runs of small generated graphs by realm_run_all, with 1 to 8 threads. Usage: loop_runs COUNT [SEED]

   Each has to perform all that comes and to give the report of the evaluation, and none may stop: where no run has ended for a while,
   that is told and the status is 1. */
#include "realm.h"
#include <signal.h>
#include <stdio.h>
#include <stdlib.h>
#include <string.h>
#include <unistd.h>

enum { ROOM = 1 << 16, LINES = 40, GRAPHS = 64, SECONDS_WITHOUT_END = 120 };

struct graph { uint8_t text[ROOM], report[ROOM]; uint64_t length, report_length; };
static struct graph graphs[GRAPHS];
static long turn;

static void wrong(const char *what, uint32_t status) {
    fprintf(stderr, "loop_runs: run %ld: %s, status %u\n", turn, what, status);
    _exit(1);
}

static void late(int signal) {
    (void)signal;
    static const char said[] = "loop_runs: no run has ended for two minutes\n";
    if (write(2, said, sizeof said - 1)) _exit(1);
    _exit(1);
}

static void make(struct graph *graph, uint64_t seed) {
    uint32_t status = realm_make(seed, 1 + (uint32_t)(seed % LINES), graph->text, ROOM, &graph->length);
    if (!status) status = realm_eval(graph->text, graph->length, graph->report, ROOM, &graph->report_length);
    if (status) wrong("no graph", status);
}

/* Half of the runs have lines that were issued, and one that was done, before the loop. */
static void begin_by_hand(struct realm_run *run) {
    struct realm_work work = {0};
    uint32_t line, other;
    while (realm_run_issue(run, &line) == REALM_RUN_DONE && line < LINES / 4) {}
    if (realm_run_take(run, 0, &work, &other)) return;
    if (realm_run_all(run, 2) != REALM_MISUSE_WORK_OUT) wrong("work is out", 0);
    realm_work_perform(&work);
    realm_run_put_back(run, &work);
}

static void run_one(struct graph *graph, uint32_t threads, int is_begun) {
    static uint8_t out[ROOM];
    struct realm_run run = {0};
    struct realm_verdict verdict;
    struct realm_run_lines lines;
    uint64_t written;
    uint32_t status = realm_run_new(graph->text, graph->length, 0, &run, &verdict);
    if (status) wrong("no run", status);
    if (is_begun) begin_by_hand(&run);
    if ((status = realm_run_all(&run, threads))) wrong("the loop", status);
    if ((status = realm_run_state(&run, &lines)) || lines.left || lines.out || lines.unissued) wrong("the state", status);
    if ((status = realm_run_report(&run, out, ROOM, &written))) wrong("no report", status);
    if (written != graph->report_length || memcmp(out, graph->report, written)) wrong("another report", 0);
    if ((status = realm_run_free(&run)) || run.at) wrong("not freed", status);
}

int main(int argc, char **argv) {
    long count = argc > 1 ? atol(argv[1]) : 10000;
    uint64_t seed = argc > 2 ? strtoull(argv[2], 0, 10) : 1;
    signal(SIGALRM, late);
    for (turn = 0; turn < count; turn++) {
        struct graph *graph = &graphs[turn % GRAPHS];
        alarm(SECONDS_WITHOUT_END);
        if (turn % 4096 < GRAPHS) make(graph, seed * 1000003 + (uint64_t)turn);
        run_one(graph, 1 + (uint32_t)(turn % 8), turn / 8 % 2 == 1);
    }
    printf("%ld runs by 1 to 8 threads: each as the evaluation\n", count);
    return 0;
}
