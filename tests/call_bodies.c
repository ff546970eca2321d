/* Bodies of calls: which are run, what they are told, and which run side by side. The status is 0 where all is so. */
#include "realm.h"
#include <pthread.h>
#include <stdio.h>
#include <string.h>
#include <time.h>

#define TEXT(lines) "realm 3\nspace s 0..3\nspace t 0..1,3..3\ndata A s x,y\ninst B s z\nlock L\n" lines "end\n"
#define CHECK(it) do { if (!(it)) return printf("line %d: %s\n", __LINE__, #it), 1; } while (0)

struct seen {
    pthread_mutex_t lock;
    pthread_cond_t changed;
    int begun, inside, most_inside;
    struct realm_call last;
    struct realm_interval interval;   /* the last one of its first access */
};

static void begin(struct seen *seen, const struct realm_call *call) {
    pthread_mutex_lock(&seen->lock);
    seen->begun++;
    seen->last = *call;
    for (uint32_t n = 0; realm_call_interval(call, 0, n, &seen->interval) == REALM_RUN_DONE; n++) {}
    if (++seen->inside > seen->most_inside) seen->most_inside = seen->inside;
    pthread_cond_broadcast(&seen->changed);
    pthread_mutex_unlock(&seen->lock);
}

static void end(struct seen *seen) {
    pthread_mutex_lock(&seen->lock);
    seen->inside--;
    pthread_mutex_unlock(&seen->lock);
}

/* A body that stays until two have begun, or for so many seconds. */
static uint32_t stay(struct seen *seen, const struct realm_call *call, int seconds, long nanoseconds) {
    struct timespec until;
    clock_gettime(CLOCK_REALTIME, &until);
    until.tv_sec += seconds;
    until.tv_nsec += nanoseconds;
    begin(seen, call);
    pthread_mutex_lock(&seen->lock);
    while (seen->begun < 2 && !pthread_cond_timedwait(&seen->changed, &seen->lock, &until)) {}
    pthread_mutex_unlock(&seen->lock);
    end(seen);
    return 0;
}

static uint32_t meet(const struct realm_call *call, void *context) { return stay(context, call, 20, 0); }

static uint32_t add(const struct realm_call *call, void *context) { return stay(context, call, 0, 50000000); }

static uint32_t note(const struct realm_call *call, void *context) {
    begin(context, call);
    end(context);
    return 0;
}

/* What a run by four threads answers, and what the bodies saw. */
static uint32_t ran(const char *text, struct seen *seen, size_t count) {
    const struct realm_body bodies[] = {{"note", note, seen}, {"meet", meet, seen}, {"add", add, seen}};
    struct realm_run run = {0};
    struct realm_verdict verdict;
    *seen = (struct seen){.lock = PTHREAD_MUTEX_INITIALIZER, .changed = PTHREAD_COND_INITIALIZER};
    if (realm_run_new((const uint8_t *)text, strlen(text), 0, &run, &verdict)) return 99;
    uint32_t answer = realm_run_all_with(&run, 4, bodies, count);
    realm_run_free(&run);
    return answer;
}

/* Two that read one column, and two that write apart, run at once; two that reduce into one column take turns, also where the section
   of one was cancelled, so that it holds no reservation. */
static int side_by_side(void) {
    struct seen seen;
    CHECK(!ran(TEXT("f = call meet read A.x s\ng = call meet read A.x s\n"), &seen, 3) && seen.most_inside == 2);
    CHECK(!ran(TEXT("f = call meet write A.x s\ng = call meet write A.y s\n"), &seen, 3) && seen.most_inside == 2);
    CHECK(!ran(TEXT("e = task expect B.z s 1 1\na = acquire L on e\nm = mergei a\nf = call add sum A.x s on m\nn = mergei f\nr = release a on n\n"
                    "b = acquire L\ng = call add sum A.x s on b\no = mergei g\nq = release b on o\n"), &seen, 3));
    CHECK(seen.begun == 2 && seen.most_inside == 1);
    return 0;
}

/* What a body is told; no body is run of a call that is cancelled; a word that is not in the table. */
static int told(void) {
    struct seen seen;
    CHECK(!ran(TEXT("f = call note 7 18446744073709551615 read A.y t max A.x s\n"), &seen, 3) && seen.begun == 1);
    CHECK(!strcmp(seen.last.word, "note") && seen.last.values == 2 && seen.last.value[0] == 7 && seen.last.value[1] == UINT64_MAX);
    CHECK(seen.last.accesses == 2 && seen.last.access[0].mode == REALM_READ && seen.last.access[0].column == 1 && seen.last.access[0].space == 1);
    CHECK(seen.last.operation == 0 && seen.interval.first == 3 && seen.interval.last == 3);
    CHECK(seen.last.access[1].mode == REALM_MAX && seen.last.access[1].column == 0 && seen.last.access[1].space == 0);
    CHECK(!ran(TEXT("e = task expect B.z s 1 1\nf = call note on e\ng = call note\n"), &seen, 3) && seen.begun == 1);
    CHECK(ran(TEXT("f = call meet\ng = call note\nh = call add\n"), &seen, 2) == REALM_MISUSE_NO_BODY && !seen.begun);
    CHECK(ran(TEXT("f = call note\n"), &seen, 0) == REALM_MISUSE_NO_BODY && !seen.begun);
    return 0;
}

/* The same by a program's own loop. */
static int by_hand(void) {
    static const char text[] = TEXT("e = task expect B.z s 1 1\nf = call note 3 write A.x t\ng = call note on e\n");
    struct realm_run run = {0};
    struct realm_work work = {0};
    struct realm_verdict verdict;
    struct realm_call call = {0};
    struct realm_interval interval = {9, 9};
    uint32_t line, other;
    CHECK(!realm_run_new((const uint8_t *)text, sizeof text - 1, 0, &run, &verdict));
    for (int k = 0; k < 3; k++) {
        CHECK(!realm_run_issue(&run, &line) && !realm_run_take(&run, line, &work, &other));
        CHECK(realm_work_call(&work, &call) == (k == 1 ? REALM_RUN_DONE : REALM_RUN_NONE));
        CHECK(realm_work_interval(&work, 0, 1, &interval) == (k == 1 ? REALM_RUN_DONE : REALM_RUN_NONE));
        CHECK(realm_work_interval(&work, 0, 2, &interval) == REALM_RUN_NONE && realm_work_interval(&work, 1, 0, &interval) == REALM_RUN_NONE);
        CHECK(!realm_work_perform(&work) && realm_work_call(&work, &call) == REALM_MISUSE_PERFORMED);
        CHECK(!realm_run_put_back(&run, &work) && realm_work_call(&work, &call) == REALM_MISUSE_EMPTY);
    }
    CHECK(call.value[0] == 3 && interval.first == 3 && interval.last == 3);
    return realm_run_free(&run);
}

/* Without bodies no call is performed: neither by realm_run_all nor by a report, but where what is left never comes. */
static int without_bodies(void) {
    static const char text[] = TEXT("u = user\nf = call note on u\ng = call note\n");
    struct seen seen = {.lock = PTHREAD_MUTEX_INITIALIZER, .changed = PTHREAD_COND_INITIALIZER};
    const struct realm_body bodies[] = {{"note", 0, &seen}, {"note", note, &seen}};
    struct realm_run run = {0};
    struct realm_verdict verdict;
    uint8_t out[256];
    uint64_t written;
    CHECK(!realm_run_new((const uint8_t *)text, sizeof text - 1, 0, &run, &verdict));
    CHECK(realm_run_all(&run, 2) == REALM_MISUSE_NO_BODY && realm_run_all_with(&run, 2, 0, 2) == REALM_MISUSE_NO_BODY);
    CHECK(realm_run_report(&run, out, sizeof out, &written) == REALM_MISUSE_CALLS_LEFT && !written);
    CHECK(!realm_run_all_with(&run, 2, bodies, 2) && seen.begun == 1);
    CHECK(!realm_run_report(&run, out, sizeof out, &written) && !realm_run_report(&run, out, sizeof out, &written) && written > 0);
    return realm_run_free(&run);
}

int main(void) {
    if (side_by_side() || told() || by_hand() || without_bodies()) return 1;
    puts("bodies of calls: as wanted");
    return 0;
}
