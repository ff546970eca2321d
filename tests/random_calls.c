/* Random sequences of calls, right and wrong, on the handles of runs, works and events, each by 1 to 8 threads.
   Usage: random_calls COUNT [SEED [LEAST [keep]]]

   Nothing may fault, each report that is given is that of the evaluation, each event answers as it was ended, and what is freed twice
   says so. In the end it is told how many sequences reached a report, and how often each misuse was answered; the status is 1
   where fewer than half reached one, or a misuse came fewer than LEAST times (100). With `keep` no handle of a run or of work is freed
   before the end: a column that work reads is not given back where that work is freed, or its run while it is out. */
#include "realm.h"
#include "realm_events.h"
#include <pthread.h>
#include <signal.h>
#include <stdatomic.h>
#include <stdio.h>
#include <stdlib.h>
#include <string.h>
#include <unistd.h>

enum { RUNS = 3, WORKS = 16, TABLES = 2, HELDS = 16, EVENTS = 32, OLD = 32, REPORT_ROOM = 1 << 16, TEXT_ROOM = 1 << 15, STATUSES = 32 };
enum { SECONDS_WITHOUT_END = 120, NO_FATE = 0 };

/* Of what a thread shares with the others: a handle is filled by one thread alone, and used by all. */
struct event { _Atomic uint64_t slot_gen, table; _Atomic int tried, told, is_made; };
static struct realm_run runs[RUNS];
static struct realm_work works[WORKS];
static struct realm_held owners[TABLES], helds[HELDS];
static _Atomic int event_of[HELDS];                     /* the event of a pending, or -1 */
static struct event events[EVENTS];
static _Atomic uint64_t old[OLD];                       /* numbers that calls gave at some time */
static uint8_t texts[RUNS][TEXT_ROOM], reports[RUNS][REPORT_ROOM];
static uint64_t text_lengths[RUNS], report_lengths[RUNS];
static uint32_t line_counts[RUNS];
static _Atomic long answers[STATUSES];
static _Atomic long turn, reached;
static int thread_count, steps, may_abandon;

struct thread { uint64_t draw; int number; pthread_t id; };

static uint32_t draw(struct thread *t, uint32_t below) {
    t->draw ^= t->draw << 13;
    t->draw ^= t->draw >> 7;
    t->draw ^= t->draw << 17;
    return (uint32_t)((t->draw * 0x9e3779b97f4a7c15u) >> 33) % below;
}

static void wrong(const char *what) {
    fprintf(stderr, "random_calls: sequence %ld: %s\n", turn, what);
    abort();
}

static uint64_t load(uint64_t *at) { return __atomic_load_n(at, __ATOMIC_SEQ_CST); }

static uint32_t note(uint32_t status) {
    if (status >= STATUSES) wrong("a status that there is not");
    answers[status]++;
    return status;
}

static void keep_number(struct thread *t, uint64_t number) {
    if (number) old[draw(t, OLD)] = number;
}

/* Which handle a call is given: mostly the right one itself or a copy of it, sometimes an old one, one of another kind, none, or a
   number that no call gave. */
static uint64_t *choose(struct thread *t, uint64_t *right, uint64_t *copy) {
    uint32_t how = draw(t, 40);
    *copy = load(right);
    if (how < 12) return right;
    if (how == 39) *copy = 0;
    if (how == 38) *copy = old[draw(t, OLD)];
    if (how == 37) *copy = load(&helds[draw(t, HELDS)].at);
    if (how == 36) *copy = load(&works[draw(t, WORKS)].at);
    if (how == 35) *copy = load(&runs[draw(t, RUNS)].at);
    if (how == 34) *copy = (uint64_t)draw(t, UINT32_MAX) << 32 | draw(t, UINT32_MAX);
    return copy;
}

#define CHOSEN(type, right) ((struct type *)choose(t, &(right)->at, &copy))

/* Which of a thread's own handles a call fills, of so many: mostly an empty one. */
static int choose_out(struct thread *t, uint64_t *first, int count) {
    int own = (count - t->number + thread_count - 1) / thread_count, at = 0;
    if (own <= 0) return -1;
    for (int tries = 0; tries < 8; tries++) {
        at = t->number + thread_count * (int)draw(t, (uint32_t)own);
        if (!load(first + at) || !draw(t, 40)) break;
    }
    return at;
}

static void check_report(int which, const uint8_t *out, uint64_t written) {
    if (written != report_lengths[which] || memcmp(out, reports[which], written)) wrong("a report is not that of the evaluation");
}

static void begin_run(struct thread *t) {
    struct realm_verdict verdict;
    int at = (int)draw(t, RUNS);
    /* (thread 0 alone fills runs) */
    if (t->number) return;
    note(realm_run_new(texts[at], text_lengths[at], draw(t, 30) ? 0 : 9000, &runs[at], &verdict));
    keep_number(t, load(&runs[at].at));
}

static void take_line(struct thread *t, int at) {
    uint64_t copy;
    uint32_t other = 0, line = draw(t, 50) ? draw(t, line_counts[at]) : draw(t, UINT32_MAX);
    int out = choose_out(t, &works[0].at, WORKS);
    if (out < 0) return;
    note(realm_run_take(CHOSEN(realm_run, &runs[at]), line, &works[out], &other));
    keep_number(t, load(&works[out].at));
}

static void report_run(struct thread *t, int at) {
    uint64_t copy, written = 7;
    uint64_t number = load(&runs[at].at);
    uint8_t *out = malloc(REPORT_ROOM);
    copy = number;
    uint32_t status = note(realm_run_report((struct realm_run *)&copy, out, draw(t, 8) ? REPORT_ROOM : 3, &written));
    if (status == REALM_RUN_DONE) check_report(at, out, written);
    free(out);
}

/* Issues, takes, performs and puts back, as a program would. */
static void do_line(struct thread *t, int at) {
    uint64_t copy;
    uint32_t line = 0, other = 0;
    int out = choose_out(t, &works[0].at, WORKS);
    if (out < 0) return;
    if (note(realm_run_issue(CHOSEN(realm_run, &runs[at]), &line)) != REALM_RUN_DONE) line = draw(t, line_counts[at]);
    if (note(realm_run_take(&runs[at], line, &works[out], &other))) return;
    keep_number(t, load(&works[out].at));
    note(realm_work_perform(CHOSEN(realm_work, &works[out])));
    note(realm_run_put_back(&runs[at], CHOSEN(realm_work, &works[out])));
    while (note(realm_run_woken(&runs[at], &line)) == REALM_RUN_DONE) {}
}

static void state_of(struct thread *t, int at) {
    uint64_t copy;
    struct realm_run_lines lines;
    uint32_t status = note(realm_run_state(CHOSEN(realm_run, &runs[at]), &lines));
    if (status && (lines.unissued | lines.issued | lines.out | lines.ended | lines.left)) wrong("a state beside a misuse");
    if (!status && lines.left > lines.unissued + lines.issued + lines.out) wrong("more are left than have not ended");
}

static void on_runs(struct thread *t) {
    uint64_t copy;
    uint32_t line = 0;
    int at = (int)draw(t, RUNS), work = (int)draw(t, WORKS);
    switch (draw(t, 24)) {
    case 0: case 1: begin_run(t); break;
    case 2: case 3: note(realm_run_issue(CHOSEN(realm_run, &runs[at]), &line)); break;
    case 4: case 5: case 6: take_line(t, at); break;
    case 7: case 8: note(realm_work_perform(CHOSEN(realm_work, &works[work]))); break;
    case 9: note(realm_work_finish(CHOSEN(realm_work, &works[work]), draw(t, 3))); break;
    case 10: case 11: case 12: note(realm_run_put_back(CHOSEN(realm_run, &runs[at]), CHOSEN(realm_work, &works[work]))); break;
    case 13: note(realm_run_woken(CHOSEN(realm_run, &runs[at]), &line)); break;
    case 14: state_of(t, at); break;
    case 15: report_run(t, draw(t, 4) ? 0 : at); break;
    case 16: note(realm_run_all(CHOSEN(realm_run, &runs[at]), draw(t, 10))); break;
    case 17: if (!draw(t, 12) && may_abandon) note(realm_work_free(CHOSEN(realm_work, &works[work]))); break;
    case 18: if (!draw(t, 12) && may_abandon) note(realm_run_free(CHOSEN(realm_run, &runs[at]))); break;
    default: do_line(t, at);
    }
}

static struct realm_handle event_at(int number) {
    uint64_t slot_gen = events[number].slot_gen;
    return (struct realm_handle){(uint32_t)slot_gen, (uint32_t)(slot_gen >> 32), events[number].table};
}

static void create_event(struct thread *t, int table) {
    struct realm_handle handle = {0, 0, 0};
    int out = choose_out(t, &helds[0].at, HELDS), number;
    if (out < 0) return;
    uint64_t before = load(&helds[out].at);
    for (number = t->number; number < EVENTS && events[number].is_made; number += thread_count) {}
    if (number >= EVENTS) return;
    if (!before) event_of[out] = -1;
    if (note(realm_events_create(&owners[table], &helds[out], &handle))) return;
    keep_number(t, load(&helds[out].at));
    events[number].slot_gen = (uint64_t)handle.gen << 32 | handle.slot;
    events[number].table = handle.table;
    events[number].is_made = 1;
    event_of[out] = number;
}

/* Ends what a handle held at one moment, where it is known which event that is. */
static void end_event(struct thread *t, int at) {
    int number = event_of[at];
    struct realm_held held = {load(&helds[at].at)};
    if (number < 0 || event_of[at] != number) return;
    uint32_t fate = draw(t, 20) ? draw(t, 2) : 2;
    if (fate < 2) events[number].tried |= 1 << fate;
    if (note(realm_events_end(&held, fate)) == REALM_EVENTS_DONE) events[number].told = 1 << fate;
}

/* What is answered of an event agrees with how it was ended. */
static void check_answer(int number, int told, uint32_t answer) {
    if (answer > REALM_PENDING) return;
    if (answer == REALM_PENDING && told != NO_FATE) wrong("an event is pending that has ended");
    if (answer != REALM_PENDING && !(events[number].tried & 1 << answer)) wrong("an event has ended as nobody ended it");
    if (answer != REALM_PENDING && told != NO_FATE && told != 1 << answer) wrong("an event has ended otherwise");
}

static void look_at(struct thread *t, struct realm_held *place, int is_closed) {
    int number = (int)draw(t, EVENTS), told = events[number].told;
    struct realm_handle handle = event_at(number);
    if (!events[number].is_made) handle = (struct realm_handle)REALM_NO_EVENT;
    if (!draw(t, 6)) {
        struct realm_handle beyond = {draw(t, 8) ? handle.slot : draw(t, UINT32_MAX), handle.gen + draw(t, 20), handle.table};
        note(realm_events_look(place, beyond));
        return;
    }
    uint32_t answer = note(is_closed ? realm_events_closed_look(place, handle) : realm_events_look(place, handle));
    if (events[number].is_made && handle.table == events[number].table && handle.slot != UINT32_MAX) check_answer(number, told, answer);
}

static void learn_of(struct thread *t, struct realm_held *place, struct realm_held *receipt) {
    struct realm_handle handle;
    (void)t;
    note(realm_events_learn(place, receipt, &handle));
}

/* (mostly by thread 0, since what another one closes is freed by nobody) */
static void close_one(struct thread *t, int table) {
    uint64_t copy;
    if (t->number == 0 || !draw(t, 8)) note(realm_events_close(CHOSEN(realm_held, &owners[table])));
    look_at(t, &owners[table], 1);
}

static void on_events(struct thread *t) {
    uint64_t copy;
    uint32_t number;
    struct realm_handle handle;
    int at = (int)draw(t, HELDS), other = (int)draw(t, HELDS), table = (int)draw(t, TABLES), out = choose_out(t, &helds[0].at, HELDS);
    struct realm_held *place = draw(t, 2) ? &owners[table] : &helds[at];
    if (out < 0) return;
    switch (draw(t, 20)) {
    case 0: case 1: case 2: create_event(t, table); break;
    case 3: case 4: case 5: end_event(t, at); break;
    case 6: note(realm_events_split(CHOSEN(realm_held, place), &helds[out])); break;
    case 7: note(realm_events_join(CHOSEN(realm_held, place), CHOSEN(realm_held, &helds[other]))); break;
    case 8: note(realm_events_waiter(CHOSEN(realm_held, &owners[table]), &helds[out], &number)); break;
    case 9: note(realm_events_watch(CHOSEN(realm_held, place), event_at((int)draw(t, EVENTS)), CHOSEN(realm_held, &helds[other]))); break;
    case 10: case 11: note(realm_events_next(CHOSEN(realm_held, &helds[at]), &helds[out], &number)); break;
    case 12: note(realm_events_receipt(CHOSEN(realm_held, &helds[at]), &helds[out])); break;
    case 13: learn_of(t, CHOSEN(realm_held, place), CHOSEN(realm_held, &helds[other])); break;
    case 14: note(realm_events_leave(CHOSEN(realm_held, &helds[at]))); break;
    case 15: close_one(t, table); break;
    case 16: note(realm_events_closed_place(CHOSEN(realm_held, &owners[table]), draw(t, 12), &handle)); break;
    case 17: note(realm_events_free(CHOSEN(realm_held, &helds[at]))); break;
    default: look_at(t, CHOSEN(realm_held, place), 0);
    }
}

static void *act(void *of) {
    struct thread *t = of;
    for (int step = 0; step < steps; step++) {
        if (draw(t, 3)) on_runs(t);
        else on_events(t);
    }
    return 0;
}

/* Makes the texts of a sequence, and what the evaluation says of each. */
static void make_texts(struct thread *t) {
    for (int at = 0; at < RUNS; at++) {
        line_counts[at] = 1 + draw(t, 24);
        if (realm_make(draw(t, 1000000), line_counts[at], texts[at], TEXT_ROOM, &text_lengths[at])) wrong("no text");
        if (realm_eval(texts[at], text_lengths[at], reports[at], REPORT_ROOM, &report_lengths[at])) wrong("no evaluation");
    }
}

static void begin(struct thread *t) {
    struct realm_verdict verdict;
    make_texts(t);
    for (int at = 0; at < RUNS; at++) note(realm_run_new(texts[at], text_lengths[at], 0, &runs[at], &verdict));
    for (int at = 0; at < TABLES; at++) note(realm_events_new(1 + draw(t, 4), draw(t, 6), draw(t, 12), &owners[at]));
    for (int at = 0; at < EVENTS; at++) events[at].is_made = events[at].tried = events[at].told = 0;
    for (int at = 0; at < HELDS; at++) event_of[at] = -1;
}

/* Puts back what is out, and has each run report that can: how many did. */
static int finish(void) {
    static uint8_t out[REPORT_ROOM];
    uint64_t written;
    int count = 0;
    for (int work = 0; work < WORKS; work++) {
        note(realm_work_perform(&works[work]));
        for (int at = 0; at < RUNS; at++) note(realm_run_put_back(&runs[at], &works[work]));
    }
    for (int at = 0; at < RUNS; at++) {
        note(realm_run_all(&runs[at], (uint32_t)thread_count));
        if (note(realm_run_report(&runs[at], out, REPORT_ROOM, &written)) == REALM_RUN_DONE) {
            check_report(at, out, written);
            count++;
        }
    }
    return count;
}

/* Frees all that is held; a second time each handle is empty. */
static void let_go(void) {
    struct realm_run run;
    for (int twice = 0; twice < 2; twice++) {
        for (int at = 0; at < WORKS; at++) note(realm_work_free(&works[at]));
        for (int at = 0; at < RUNS; at++) {
            run = runs[at];
            if (note(realm_run_free(&runs[at])) == REALM_RUN_DONE && note(realm_run_free(&run)) != REALM_MISUSE_USED_UP) wrong("freed twice");
        }
        for (int at = 0; at < HELDS; at++) note(realm_events_free(&helds[at]));
    }
}

/* A table that only its owner holds is closed, where it isn't yet, by this thread; what another one closed stays with that one, which is gone. */
static void close_tables(struct thread *t) {
    for (int at = 0; at < TABLES; at++) {
        note(realm_events_close(&owners[at]));
        look_at(t, &owners[at], 1);
        if (note(realm_events_free(&owners[at])) == REALM_MISUSE_OTHER_THREAD) owners[at].at = 0;
    }
}

static void sequence(uint64_t seed) {
    struct thread threads[8];
    struct thread first = {.draw = seed * 0x9e3779b97f4a7c15u + 1, .number = 0};
    thread_count = 1 + (int)draw(&first, 8);
    steps = 10 + (int)draw(&first, 60) / thread_count * 2;
    begin(&first);
    for (int at = 0; at < thread_count; at++) {
        threads[at] = (struct thread){.draw = first.draw + (uint64_t)at * 77777 + 1, .number = at};
        if (at && pthread_create(&threads[at].id, 0, act, &threads[at])) wrong("no thread");
    }
    act(&threads[0]);
    for (int at = 1; at < thread_count; at++) pthread_join(threads[at].id, 0);
    reached += finish() > 0;
    let_go();
    close_tables(&first);
}

static void late(int signal) {
    (void)signal;
    static const char said[] = "random_calls: no sequence has ended for two minutes\n";
    if (write(2, said, sizeof said - 1)) _exit(1);
    _exit(1);
}

static int tell(long count, long least) {
    static const struct { int number; const char *name; } misuse[] = {
        {REALM_MISUSE_WRONG, "wrong"}, {REALM_MISUSE_EMPTY, "empty"}, {REALM_MISUSE_USED_UP, "used up"}, {REALM_MISUSE_OTHER_RUN, "other run"},
        {REALM_MISUSE_RANGE, "range"}, {REALM_MISUSE_UNPERFORMED, "unperformed"}, {REALM_MISUSE_WORK_OUT, "work out"},
        {REALM_MISUSE_IN_USE, "in use"}, {REALM_MISUSE_REPORTED, "reported"}, {REALM_MISUSE_PERFORMED, "performed"},
        {REALM_MISUSE_FILLED, "filled"}, {REALM_MISUSE_OTHER_THREAD, "other thread"},
    };
    int few = reached * 2 < count || answers[REALM_MISUSE_FORGOTTEN];
    printf("%ld sequences, %ld reached a report; misuse:", count, reached);
    for (size_t at = 0; at < sizeof misuse / sizeof *misuse; at++) {
        printf(" %s %ld%s", misuse[at].name, answers[misuse[at].number], at + 1 < sizeof misuse / sizeof *misuse ? "," : "\n");
        few |= answers[misuse[at].number] < least;
    }
    return few;
}

int main(int argc, char **argv) {
    long count = argc > 1 ? atol(argv[1]) : 1000, least = argc > 3 ? atol(argv[3]) : 100;
    uint64_t seed = argc > 2 ? strtoull(argv[2], 0, 10) : 1;
    may_abandon = argc < 5;
    signal(SIGALRM, late);
    for (turn = 0; turn < count; turn++) {
        alarm(SECONDS_WITHOUT_END);
        sequence(seed * 1000003 + (uint64_t)turn);
    }
    return tell(count, least);
}
