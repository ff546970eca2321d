/* Random graphs of calls, of which bodies fault at random, by realm_run_all_with with 1 to 8 threads and by a loop of this program's own: which
   bodies are run, after which others, when a report is refused, and what it says, beside an evaluation that is written here.
   Usage: call_faults COUNT [SEED] */
#include "realm.h"
#include <stdatomic.h>
#include <stdio.h>
#include <stdlib.h>
#include <string.h>

enum { MOST_LINES = 48, MOST_SOURCES = 3, ROOM = 1 << 14 };
enum kind { CALL, MERGE, IGNORING, USER };
enum end { DONE, FAULTED, CANCELLED, WAITING };

struct line {
    enum kind kind;
    enum end end;                /* what it is to be */
    int faults, source_count, sources[MOST_SOURCES];
    _Atomic int begun, over;     /* of the body of a call */
};

struct graph {
    int count;
    struct line lines[MOST_LINES];
    char text[ROOM], report[ROOM];
};

static uint64_t state;
static long turn;

static int draw(int below) {
    state ^= state << 13;
    state ^= state >> 7;
    state ^= state << 17;
    return (int)((state * 0x9e3779b97f4a7c15u >> 33) % (uint64_t)below);
}

static void wrong(const struct graph *graph, const char *what) {
    fprintf(stderr, "call_faults: turn %ld: %s\n%s", turn, what, graph->text);
    exit(1);
}

/* How a line ends, by the ends of those that it waits for. */
static enum end end_of(const struct graph *graph, const struct line *line) {
    int waits = line->kind == USER, cancelled = 0;
    for (int k = 0; k < line->source_count; k++) {
        enum end end = graph->lines[line->sources[k]].end;
        waits |= end == WAITING;
        cancelled |= end == FAULTED || end == CANCELLED;
    }
    if (waits) return WAITING;
    if (line->kind == IGNORING) return DONE;
    if (cancelled) return CANCELLED;
    return line->kind == CALL && line->faults ? FAULTED : DONE;
}

static int has_source(const struct line *line, int source) {
    for (int k = 0; k < line->source_count; k++)
        if (line->sources[k] == source) return 1;
    return 0;
}

/* A line waits for some of the last dozen before it. A merge waits for two at least. */
static void make_line(struct graph *graph, int at) {
    struct line *line = &graph->lines[at];
    int kind = draw(20), wanted = draw(MOST_SOURCES + 1), first = at > 12 ? at - 12 : 0;
    *line = (struct line){.kind = kind < 14 ? CALL : kind < 16 ? MERGE : kind < 19 ? IGNORING : USER, .faults = !draw(6)};
    if (at < 2 && line->kind != CALL) line->kind = USER;
    if (line->kind == USER) wanted = 0;
    else if (line->kind != CALL && wanted < 2) wanted = 2;
    for (int tries = 0; tries < 40 && line->source_count < wanted && first < at; tries++) {
        int source = first + draw(at - first);
        if (!has_source(line, source)) line->sources[line->source_count++] = source;
    }
    if (line->kind != CALL && line->kind != USER && line->source_count < 2) *line = (struct line){.kind = USER};
    line->end = end_of(graph, line);
}

static void write_texts(struct graph *graph) {
    static const char *const verbs[] = {"call body %d read A.x s", "merge", "mergei", "user"};
    static const char *const ends[] = {"done triggered", "faulted poisoned", "cancelled poisoned", "waiting pending"};
    char *text = graph->text, *report = graph->report;
    text += sprintf(text, "realm 3\nspace s 0..3\ndata A s x\n");
    report += sprintf(report, "realm-report 1\n");
    for (int at = 0; at < graph->count; at++) {
        struct line *line = &graph->lines[at];
        text += sprintf(text, "l%d = ", at);
        text += sprintf(text, verbs[line->kind], at);
        for (int k = 0; k < line->source_count; k++) text += sprintf(text, line->kind == CALL && !k ? " on l%d" : " l%d", line->sources[k]);
        text += sprintf(text, "\n");
        report += sprintf(report, "op l%d %s\n", at, ends[line->end]);
    }
    sprintf(text, "end\n");
    sprintf(report, "done\n");
}

static void make_graph(struct graph *graph) {
    graph->count = 1 + draw(MOST_LINES);
    for (int at = 0; at < graph->count; at++) make_line(graph, at);
    write_texts(graph);
}

/* The body of each call: it is run once and after those that the call waits for, and faults where that was drawn. */
static uint32_t body(const struct realm_call *call, void *context) {
    struct graph *graph = context;
    struct line *line = &graph->lines[call->value[0]];
    if (line->begun++ || call->operation != call->value[0]) wrong(graph, "a body is run twice, or is told another operation");
    if (line->end != DONE && line->end != FAULTED) wrong(graph, "the body of a call is run that is cancelled or waits");
    for (int k = 0; k < line->source_count; k++) {
        const struct line *source = &graph->lines[line->sources[k]];
        if (source->kind == CALL && !source->over) wrong(graph, "a body is run before one that its call waits for");
    }
    line->over = 1;
    return line->faults ? 1 + call->operation : 0;
}

static uint32_t report_of(struct realm_run *run, char *out, uint64_t *written) { return realm_run_report(run, (uint8_t *)out, ROOM, written); }

/* The report says what was evaluated here, twice, and each body was run that was to be. */
static void check_report(struct graph *graph, struct realm_run *run) {
    static char out[ROOM];
    uint64_t written;
    for (int twice = 0; twice < 2; twice++) {
        if (report_of(run, out, &written)) wrong(graph, "a report is refused");
        if (written != strlen(graph->report) || memcmp(out, graph->report, written)) wrong(graph, "the report is another");
    }
    for (int at = 0; at < graph->count; at++) {
        struct line *line = &graph->lines[at];
        int is_run = line->kind == CALL && (line->end == DONE || line->end == FAULTED);
        if (line->over != is_run) wrong(graph, "a body is not run");
        line->begun = line->over = 0;
    }
}

static void begin(struct graph *graph, struct realm_run *run) {
    struct realm_verdict verdict;
    if (realm_run_new((const uint8_t *)graph->text, strlen(graph->text), 0, run, &verdict)) wrong(graph, "the graph is refused");
}

static void by_threads(struct graph *graph, uint32_t threads) {
    const struct realm_body bodies[] = {{"body", body, graph}};
    struct realm_run run = {0};
    begin(graph, &run);
    if (realm_run_all_with(&run, threads, bodies, 1)) wrong(graph, "the run is refused");
    check_report(graph, &run);
    realm_run_free(&run);
}

/* Performs work that was taken, and says what is no verdict of it first. */
static void perform(struct graph *graph, struct realm_work *work, int at) {
    struct realm_call call;
    struct line *line = &graph->lines[at];
    int has_body = realm_work_call(work, &call) == REALM_RUN_DONE;
    uint32_t verdict = REALM_FINE;
    if (realm_work_finish(work, 2) != REALM_MISUSE_RANGE) wrong(graph, "a verdict that there is not is taken");
    if (!has_body && realm_work_finish(work, REALM_FAULT) != REALM_MISUSE_WRONG) wrong(graph, "a fault is said of what has no body");
    if (has_body) {
        call.operation = (uint32_t)at;
        verdict = body(&call, graph) ? REALM_FAULT : REALM_FINE;
    }
    uint32_t status = verdict == REALM_FINE && draw(2) ? realm_work_perform(work) : realm_work_finish(work, verdict);
    if (status || realm_work_finish(work, verdict) != REALM_MISUSE_PERFORMED) wrong(graph, "work is not performed once");
    if (has_body != (line->kind == CALL && (line->end == DONE || line->end == FAULTED))) wrong(graph, "another operation has a body");
}

/* A report is refused while a call is left that has not ended and will. True where it was given. */
static int report_early(struct graph *graph, struct realm_run *run, const int *ended) {
    static char out[ROOM];
    uint64_t written;
    int left = 0;
    for (int at = 0; at < graph->count; at++) left |= graph->lines[at].kind == CALL && graph->lines[at].end != WAITING && !ended[at];
    uint32_t status = report_of(run, out, &written);
    if (left && (status != REALM_MISUSE_CALLS_LEFT || written)) wrong(graph, "a report is given while a call is left");
    if (!left && status) wrong(graph, "a report is refused while no call is left");
    return !left;
}

/* Tries all lines, beginning anywhere: how many were performed. */
static int try_all(struct graph *graph, struct realm_run *run, int *ended) {
    struct realm_work work = {0};
    uint32_t other;
    int performed = 0, first = draw(graph->count);
    for (int k = 0; k < graph->count; k++) {
        int at = (first + k) % graph->count;
        if (realm_run_take(run, (uint32_t)at, &work, &other)) continue;
        static char out[ROOM];
        uint64_t written;
        if (report_of(run, out, &written) != REALM_MISUSE_WORK_OUT) wrong(graph, "a report is given while work is out");
        perform(graph, &work, at);
        if (realm_run_put_back(run, &work)) wrong(graph, "work is not put back");
        ended[at] = 1;
        performed++;
    }
    return performed;
}

static void by_hand(struct graph *graph) {
    struct realm_run run = {0};
    int ended[MOST_LINES] = {0};
    uint32_t line;
    begin(graph, &run);
    while (realm_run_issue(&run, &line) == REALM_RUN_DONE) {}
    while (!(draw(4) == 0 && report_early(graph, &run, ended)) && try_all(graph, &run, ended)) {}
    check_report(graph, &run);
    realm_run_free(&run);
}

int main(int argc, char **argv) {
    static struct graph graph;
    long count = argc > 1 ? atol(argv[1]) : 1000;
    state = (argc > 2 ? strtoull(argv[2], 0, 10) : 1) * 0x9e3779b97f4a7c15u + 1;
    for (turn = 0; turn < count; turn++) {
        make_graph(&graph);
        by_hand(&graph);
        by_threads(&graph, 1 + (uint32_t)turn % 8);
    }
    printf("%ld graphs of calls that fault, by threads and by hand: as evaluated\n", count);
    return 0;
}
