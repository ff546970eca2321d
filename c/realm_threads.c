/* A run by threads: the loop over issue, take, perform, put back and woken, with parking.

   Locks: `lock` of the loop, and a turn for each column into which a call reduces. `lock` is held across the proved calls on the run
   (issue, take, put_back, woken, state), which ask that one call at a time works on it, and across all that the loop keeps; it is
   not held while a line is performed. No other lock is taken within it. A turn is held while the body of a call runs, and no lock
   but a higher turn is taken within it. The run itself is entered in the table of handles by realm_run_all, so no other call gets to
   it meanwhile.

   The loop is a host as the laws of host_bodies have it, where no body faults that has written: a call is taken there when its turns are
   held, which is before its body begins, and is put back when the body has returned. No other that reduces into one of its columns is
   between the two, and of those that are out none else conflicts with it, by the clause of the proved call that takes it.

   Who parks: a thread that finds nothing to try while a line is out. Who wakes: a thread that takes a line and leaves something to try
   wakes one; the last one wakes all. So where something can be tried a thread that isn't parked is about to try it: who puts a line
   back tries next, and takes, or finds nothing.

   Lines that were busy wait in a list for each column and each reservation, and only the first of a list is tried once a line is put
   back, so that thousands that want one column cost no more than a few. What stands behind it is tried where the first goes on
   without the thing, or shares it; and all are tried before the loop ends. It ends where nothing is out and nothing to try. Where
   lines are left then, each is tried once more: none can be taken, since they wait for what never comes, or the loop has forgotten
   some. Those are performed, and the call answers so. */
#include "proved_calls.h"
#include <pthread.h>
#include <stdlib.h>
#include <string.h>

enum { MOST_THREADS = 8 };
/* Two things may share a list, so their numbers may be any. */
enum { COLUMN_LISTS = 256, LOCK_LISTS = 64, BUSY_LISTS = COLUMN_LISTS + LOCK_LISTS };
/* The turns of columns into which calls reduce; two columns may share one. */
enum { COLUMN_TURNS = 32 };
#define NO_LINE UINT32_MAX
#define NO_LIST UINT32_MAX

struct loop {
    pthread_mutex_t lock;
    pthread_cond_t changed;
    struct proved_held *run;
    uint32_t lines, issued, out, parked, status;
    int is_over, is_swept;        /* swept: all that were busy are tried since the last line was taken */
    /* each line is in at most one list, and then it is listed */
    uint32_t *next;               /* the line behind it in its list */
    uint32_t *for_issue;          /* by line: those to try once it is issued */
    uint32_t *from;               /* the list of busy ones from which it is tried */
    uint8_t *is_listed;
    uint32_t ready;               /* those to try now */
    uint32_t busy[BUSY_LISTS];
    const struct realm_body *bodies;
    size_t body_count;
    int has_calls;
    pthread_mutex_t columns[COLUMN_TURNS];
};

static void put(struct loop *loop, uint32_t *list, uint32_t line) {
    if (loop->is_listed[line]) return;
    loop->is_listed[line] = 1;
    loop->next[line] = *list;
    *list = line;
}

/* Takes the first line from a list that has one. */
static uint32_t pick(struct loop *loop, uint32_t *list) {
    uint32_t line = *list;
    *list = loop->next[line];
    loop->is_listed[line] = 0;
    return line;
}

static void move_to_ready(struct loop *loop, uint32_t *list) {
    while (*list != NO_LINE) put(loop, &loop->ready, pick(loop, list));
}

/* The next line to try: one that is ready, or the next one of the text. NO_LINE where there is none now. */
static uint32_t next_line(struct loop *loop) {
    uint32_t line = NO_LINE;
    if (loop->ready != NO_LINE) return pick(loop, &loop->ready);
    if (proved_realm_run_issue(loop->run, &line) != REALM_RUN_DONE) return NO_LINE;
    loop->issued++;
    move_to_ready(loop, &loop->for_issue[line]);
    return line;
}

/* Has the first line of a list of busy ones be tried. */
static void try_first(struct loop *loop, uint32_t list) {
    if (loop->busy[list] == NO_LINE) return;
    uint32_t line = pick(loop, &loop->busy[list]);
    loop->from[line] = list;
    put(loop, &loop->ready, line);
}

/* The list for a line that was busy, by the answer. */
static uint32_t busy_list(uint32_t status, uint32_t other) {
    if (status == REALM_RUN_BUSY_COLUMN) return other % COLUMN_LISTS;
    return status == REALM_RUN_BUSY_LOCK ? COLUMN_LISTS + other % LOCK_LISTS : NO_LIST;
}

/* Notes what a line waits for that could not be taken, and has the one behind it be tried where it does not keep that from the thing. */
static void note(struct loop *loop, uint32_t line, uint32_t status, uint32_t other) {
    uint32_t from = loop->from[line], to = busy_list(status, other);
    loop->from[line] = NO_LIST;
    if (to != NO_LIST) put(loop, &loop->busy[to], line);
    /* (one that waits for an issued line is given by woken) */
    if (status == REALM_RUN_NOT_YET && other >= loop->issued) put(loop, &loop->for_issue[other], line);
    if (status == REALM_RUN_NO_MEMORY) put(loop, &loop->ready, line);
    int has_column = status == REALM_RUN_DONE && from < COLUMN_LISTS;
    if (from != NO_LIST && from != to && !has_column) try_first(loop, from);
}

/* Takes a line. NO_LINE where none can be taken now, or memory ran out. */
static uint32_t take(struct loop *loop, struct proved_held *work) {
    uint32_t line, other = 0;
    while ((line = next_line(loop)) != NO_LINE) {
        uint32_t status = proved_realm_run_take(loop->run, line, work, &other);
        note(loop, line, status, other);
        if (status == REALM_RUN_NO_MEMORY) loop->status = status;
        if (status == REALM_RUN_DONE) loop->is_swept = 0;
        if (status == REALM_RUN_NO_MEMORY || status == REALM_RUN_DONE) return status == REALM_RUN_DONE ? line : NO_LINE;
    }
    return NO_LINE;
}

static void put_back(struct loop *loop, struct proved_held *work) {
    uint32_t line;
    proved_realm_run_put_back(loop->run, work);
    for (uint32_t list = 0; list < BUSY_LISTS; list++) try_first(loop, list);
    while (proved_realm_run_woken(loop->run, &line) == REALM_RUN_DONE) put(loop, &loop->ready, line);
}

/* Has all that were busy be tried, once since a line was taken. 0 where there is none to try. */
static int sweep(struct loop *loop) {
    if (loop->is_swept) return 0;
    loop->is_swept = 1;
    for (uint32_t list = 0; list < BUSY_LISTS; list++) move_to_ready(loop, &loop->busy[list]);
    return loop->ready != NO_LINE;
}

static int has_more(const struct loop *loop) { return loop->ready != NO_LINE || loop->issued < loop->lines; }

static void end_loop(struct loop *loop) {
    loop->is_over = 1;
    pthread_cond_broadcast(&loop->changed);
}

/* The body for a word. 0 where there is none. */
static const struct realm_body *body_of(const struct loop *loop, const char *word) {
    for (size_t i = 0; i < loop->body_count; i++) {
        const struct realm_body *body = &loop->bodies[i];
        if (body->word && body->run && !strcmp(body->word, word)) return body;
    }
    return 0;
}

/* The turns that a call takes, a bit each: those of the columns into which it reduces. */
static uint32_t turns_of(const struct realm_call *call) {
    uint32_t turns = 0;
    for (uint32_t k = 0; k < call->accesses; k++)
        if (call->access[k].mode >= REALM_SUM) turns |= 1u << call->access[k].column % COLUMN_TURNS;
    return turns;
}

/* Runs the body of a call, where there is one to run: whether it faulted. Turns are taken from the lowest on and no lock is taken within
   them, so no two threads wait for each other. */
static int run_body(struct loop *loop, uint32_t line, struct proved_held *work) {
    struct realm_call call;
    if (!loop->has_calls || realm_tell_call(work, &call)) return 0;
    call.operation = line;
    call.work = work;
    const struct realm_body *body = body_of(loop, call.word);
    uint32_t turns = turns_of(&call);
    for (uint32_t i = 0; i < COLUMN_TURNS; i++)
        if (turns >> i & 1) pthread_mutex_lock(&loop->columns[i]);
    uint32_t answer = body->run(&call, body->context);
    for (uint32_t i = COLUMN_TURNS; i-- > 0;)
        if (turns >> i & 1) pthread_mutex_unlock(&loop->columns[i]);
    return answer != 0;
}

static void perform(struct loop *loop, uint32_t line, struct proved_held *work) {
    uint32_t verdict = run_body(loop, line, work) ? REALM_FAULT : REALM_FINE;
    proved_realm_work_finish(work, verdict);
}

/* One turn of a thread, under the lock: it does a line, or parks, or ends the loop. */
static void turn(struct loop *loop) {
    struct proved_held work = {0};
    uint32_t line = loop->status == REALM_RUN_DONE ? take(loop, &work) : NO_LINE;
    if (line != NO_LINE) {
        loop->out++;
        if (loop->parked && has_more(loop)) pthread_cond_signal(&loop->changed);
        pthread_mutex_unlock(&loop->lock);
        perform(loop, line, &work);
        pthread_mutex_lock(&loop->lock);
        put_back(loop, &work);
        loop->out--;
    } else if (loop->out && loop->status == REALM_RUN_DONE) {
        loop->parked++;
        pthread_cond_wait(&loop->changed, &loop->lock);
        loop->parked--;
    } else if (loop->status != REALM_RUN_DONE || !sweep(loop)) {
        end_loop(loop);
    }
}

static void *work_on(void *of) {
    struct loop *loop = of;
    pthread_mutex_lock(&loop->lock);
    while (!loop->is_over) turn(loop);
    pthread_mutex_unlock(&loop->lock);
    return 0;
}

/* Starts the other threads and works beside them. Where the system starts fewer, those do all. */
static void work_by(struct loop *loop, uint32_t threads) {
    pthread_t started[MOST_THREADS];
    uint32_t count = 0;
    while (count + 1 < threads && !pthread_create(&started[count], 0, work_on, loop)) count++;
    work_on(loop);
    while (count) pthread_join(started[--count], 0);
}

/* Lists the lines that were issued before the loop, to be tried first. */
static void list_issued(struct loop *loop, const struct realm_run_lines *lines) {
    loop->issued = lines->issued + lines->out + lines->ended;
    for (uint32_t line = loop->issued; line > 0; line--) put(loop, &loop->ready, line - 1);
}

/* Performs one line that can still be taken. DONE where it did, NONE where none can be taken. */
static uint32_t perform_one(struct loop *loop) {
    struct proved_held work = {0};
    uint32_t other;
    for (uint32_t line = 0; line < loop->lines; line++) {
        uint32_t status = proved_realm_run_take(loop->run, line, &work, &other);
        if (status == REALM_RUN_NO_MEMORY) return status;
        if (status != REALM_RUN_DONE) continue;
        perform(loop, line, &work);
        proved_realm_run_put_back(loop->run, &work);
        return status;
    }
    return REALM_RUN_NONE;
}

/* Whether the loop has forgotten lines: FORGOTTEN where some can still be issued or taken, and those are performed then. */
static uint32_t forgotten(struct loop *loop) {
    uint32_t line, status, answer = REALM_RUN_DONE;
    do {
        while (proved_realm_run_issue(loop->run, &line) == REALM_RUN_DONE) answer = REALM_MISUSE_FORGOTTEN;
        status = perform_one(loop);
        if (status == REALM_RUN_DONE) answer = REALM_MISUSE_FORGOTTEN;
    } while (status == REALM_RUN_DONE);
    return status == REALM_RUN_NO_MEMORY ? status : answer;
}

static uint32_t run_loop(struct loop *loop, uint32_t threads, struct realm_run_lines *lines) {
    list_issued(loop, lines);
    work_by(loop, threads);
    uint32_t status = proved_realm_run_state(loop->run, lines);
    if (loop->status) return loop->status;
    return status == REALM_RUN_DONE && lines->left ? forgotten(loop) : status;
}

/* A loop over so many lines, with its lists empty. 0 where there is no memory. */
static int make_loop(struct loop *loop, struct proved_held *run, uint32_t lines) {
    *loop = (struct loop){.run = run, .lines = lines, .ready = NO_LINE};
    loop->next = malloc((3 * sizeof *loop->next + 1) * ((size_t)lines + 1));
    if (!loop->next) return 0;
    loop->for_issue = loop->next + lines;
    loop->from = loop->for_issue + lines;
    loop->is_listed = (uint8_t *)(loop->from + lines);
    for (uint32_t line = 0; line < lines; line++) {
        loop->for_issue[line] = NO_LINE;
        loop->from[line] = NO_LIST;
        loop->is_listed[line] = 0;
    }
    for (uint32_t list = 0; list < BUSY_LISTS; list++) loop->busy[list] = NO_LINE;
    for (uint32_t i = 0; i < COLUMN_TURNS; i++) pthread_mutex_init(&loop->columns[i], 0);
    pthread_mutex_init(&loop->lock, 0);
    pthread_cond_init(&loop->changed, 0);
    return 1;
}

/* Looks for calls of the graph, each of which has to have a body. NO_BODY where one has none. */
static uint32_t find_calls(struct loop *loop) {
    for (uint32_t line = 0; line < loop->lines; line++) {
        uint8_t word[sizeof((struct realm_call *)0)->word] = {0};
        uint64_t written;
        uint32_t status = proved_realm_run_word(loop->run, line, word, sizeof word - 1, &written);
        if (status != REALM_RUN_DONE) continue;
        if (!body_of(loop, (const char *)word)) return REALM_MISUSE_NO_BODY;
        loop->has_calls = 1;
    }
    return REALM_RUN_DONE;
}

/* The loop over a run that is entered. */
static uint32_t run_entered(struct proved_held *run, uint32_t threads, const struct realm_body *bodies, size_t count) {
    struct loop loop;
    struct realm_run_lines lines;
    uint32_t status = proved_realm_run_state(run, &lines);
    if (status) return status;
    if (lines.out) return REALM_MISUSE_WORK_OUT;
    if (!make_loop(&loop, run, lines.unissued + lines.issued + lines.ended)) return REALM_RUN_NO_MEMORY;
    loop.bodies = bodies;
    loop.body_count = count;
    status = find_calls(&loop);
    if (status == REALM_RUN_DONE) status = run_loop(&loop, threads, &lines);
    for (uint32_t i = 0; i < COLUMN_TURNS; i++) pthread_mutex_destroy(&loop.columns[i]);
    pthread_cond_destroy(&loop.changed);
    pthread_mutex_destroy(&loop.lock);
    free(loop.next);
    return status;
}

static uint32_t run_all(struct realm_run *run, uint32_t threads, const struct realm_body *bodies, size_t count) {
    struct realm_entry *entry;
    int cancels;
    if (threads > MOST_THREADS) return REALM_MISUSE_RANGE;
    uint32_t status = realm_enter(&run->at, KIND_RUN, &entry);
    if (status) return status;
    /* (a thread that is cancelled here would leave the others with a loop that is gone) */
    pthread_setcancelstate(PTHREAD_CANCEL_DISABLE, &cancels);
    status = run_entered(&entry->held, threads, bodies, bodies ? count : 0);
    pthread_setcancelstate(cancels, &cancels);
    realm_leave(entry);
    return status;
}

uint32_t realm_run_all(struct realm_run *run, uint32_t threads) { return run_all(run, threads, 0, 0); }

uint32_t realm_run_all_with(struct realm_run *run, uint32_t threads, const struct realm_body *bodies, size_t count) {
    return run_all(run, threads, bodies, count);
}
