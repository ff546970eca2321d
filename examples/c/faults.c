/* Each allocation fails in turn: a call then says that memory was refused, or does without, and no block is lost. The table of handles
   keeps the one block that the first call makes. Link with -Wl,--wrap=malloc,--wrap=calloc,--wrap=realloc,--wrap=free */
#include "realm.h"
#include "realm_events.h"
#include <stdio.h>
#include <stdlib.h>
#include <string.h>

void *__real_malloc(size_t), *__real_calloc(size_t, size_t), *__real_realloc(void *, size_t);
void __real_free(void *);
static long left = -1, live;

static int fails(void) { return left >= 0 && left-- == 0; }
void *__wrap_malloc(size_t n) { void *p = fails() ? 0 : __real_malloc(n); live += p != 0; return p; }
void *__wrap_calloc(size_t n, size_t m) { void *p = fails() ? 0 : __real_calloc(n, m); live += p != 0; return p; }
void *__wrap_realloc(void *old, size_t n) { void *p = fails() ? 0 : __real_realloc(old, n); live += p && !old; return p; }
void __wrap_free(void *p) { live -= p != 0; __real_free(p); }

static const char text[] = "realm 1\nspace s 0..3\ninst a s x\nu = user\nf = fill a.x s 7 on u\nt = trigger u\nend\n";
static const char traced[] = "realm 1\nu = user\nt = trigger u\nend\nrealm-trace 1\nat t\nat u\ndone\n";
#define BYTES(t) (const uint8_t *)t, sizeof t - 1

static uint8_t out[4096];
static uint64_t written;

static uint32_t check(void) { struct realm_verdict v; return realm_check(BYTES(text), &v); }
static uint32_t audit(void) { struct realm_verdict v; return realm_audit(BYTES(traced), &v); }
static uint32_t eval(void) { return realm_eval(BYTES(text), out, sizeof out, &written); }
static uint32_t upgrade(void) { return realm_upgrade(BYTES(text), out, sizeof out, &written); }
static uint32_t plan(void) { return realm_plan(BYTES(text), 2, out, sizeof out, &written); }
static uint32_t make(void) { return realm_make(3, 20, out, sizeof out, &written); }
static uint32_t explain(void) { return realm_explain(BYTES(text), out, sizeof out, &written); }

/* An operation is taken, performed and put back, and the report does the others. */
static uint32_t run(void) {
    struct realm_run run = {0};
    struct realm_work work = {0};
    struct realm_verdict v;
    uint32_t line, other, status = realm_run_new(BYTES(text), 0, &run, &v);
    if (!status) status = realm_run_issue(&run, &line);
    if (!status) status = realm_run_issue(&run, &line);
    if (!status) status = realm_run_issue(&run, &line);
    /* `f` waits for `u`, which ends after `t` */
    if (!status) status = realm_run_take(&run, 1, &work, &other) == REALM_RUN_NOT_YET ? realm_run_take(&run, 2, &work, &other) : REALM_NO_MEMORY;
    if (!status) {
        realm_work_perform(&work);
        realm_run_put_back(&run, &work);
    }
    while (!status && realm_run_woken(&run, &line) == REALM_RUN_DONE) {}
    if (!status) status = realm_run_report(&run, out, sizeof out, &written);
    if (run.at) realm_run_free(&run);
    return status;
}

/* All is performed on the calling thread. */
static uint32_t loop(void) {
    struct realm_run run = {0};
    struct realm_verdict v;
    uint32_t status = realm_run_new(BYTES(text), 0, &run, &v);
    if (!status) status = realm_run_all(&run, 1);
    if (!status) status = realm_run_report(&run, out, sizeof out, &written);
    if (run.at) realm_run_free(&run);
    return status;
}

/* Work is freed in the place of being put back, and then its run. */
static uint32_t dropped(void) {
    struct realm_run run = {0};
    struct realm_work work = {0};
    struct realm_verdict v;
    uint32_t line, other, status = realm_run_new(BYTES(text), 4, &run, &v);
    if (!status) status = realm_run_issue(&run, &line);
    if (!status) status = realm_run_issue(&run, &line);
    if (!status) status = realm_run_issue(&run, &line);
    if (!status) status = realm_run_take(&run, 2, &work, &other);
    if (work.at) realm_work_free(&work);
    if (run.at) realm_run_free(&run);
    return status;
}

static uint32_t events(void) {
    struct realm_held owner = REALM_EMPTY, place = REALM_EMPTY, pending = REALM_EMPTY, waiter = REALM_EMPTY, next = REALM_EMPTY, receipt = REALM_EMPTY;
    struct realm_handle handle;
    uint32_t number, status = realm_events_new(2, 2, 9, &owner);
    if (!status) status = realm_events_create(&owner, &pending, &handle);
    if (!status) status = realm_events_split(&owner, &place);
    if (!status) status = realm_events_waiter(&owner, &waiter, &number);
    if (!status) status = realm_events_watch(&place, handle, &waiter);
    if (!status) status = realm_events_end(&pending, REALM_OK);
    if (!status) status = realm_events_receipt(&pending, &receipt);
    if (!status) status = realm_events_next(&pending, &next, &number);
    if (!status) status = realm_events_learn(&owner, &receipt, &handle);
    if (!status) status = realm_events_look(&place, handle);
    struct realm_held *all[] = {&owner, &place, &pending, &waiter, &next, &receipt};
    for (size_t i = 0; i < sizeof all / sizeof *all; i++) if (all[i]->at) realm_events_free(all[i]);
    return status;
}

/* A call loses no block. */
static int tries(const char *name, uint32_t (*call)(void)) {
    long spared = 0;
    for (long n = 0;; n++) {
        long before = live;
        left = n;
        uint32_t status = call();
        int failed = left < 0;
        left = -1;
        if (live != before) { printf("%s: %ld blocks lost at failure %ld\n", name, live - before, n); return 1; }
        if (!failed && status) { printf("%s: status %u\n", name, status); return 1; }
        if (!failed) { printf("%s: %ld allocations, each refused in turn, and %ld of them were not needed\n", name, n, spared); return 0; }
        if (status == 0) spared++;
        else if (status != REALM_NO_MEMORY) { printf("%s: status %u at failure %ld\n", name, status, n); return 1; }
    }
}

/* The first handle: where there is no memory for the table that is said, and the next call makes it. */
static int first_handle(void) {
    struct realm_run run = {0};
    struct realm_verdict v;
    left = 0;
    uint32_t status = realm_run_new(BYTES(text), 0, &run, &v);
    left = -1;
    if (status != REALM_NO_MEMORY || run.at || live) { printf("the first handle: status %u\n", status); return 1; }
    return loop() != REALM_DONE;
}

int main(void) {
    return first_handle() | tries("check", check) | tries("audit", audit) | tries("eval", eval) | tries("upgrade", upgrade) | tries("plan", plan) |
           tries("make", make) | tries("explain", explain) | tries("run", run) | tries("loop", loop) | tries("dropped work", dropped) |
           tries("events", events);
}
