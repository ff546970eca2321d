/* Two threads share one slot: in each round one watches its event and looks at it, and the other ends it and takes the
   waiters that it caught. Then the table is closed, and answers for what was created. Usage: events [ROUNDS] */
#include "realm_events.h"
#include <pthread.h>
#include <stdio.h>
#include <stdlib.h>

static void want(uint32_t found, uint32_t wanted, const char *what) {
    if (found != wanted) {
        fprintf(stderr, "%s: %u, not %u\n", what, found, wanted);
        exit(1);
    }
}

struct watcher { struct realm_held place, waiter; struct realm_handle handle; uint32_t placed; };
struct ender { struct realm_held pending, receipt; uint32_t caught; };

static void *watch(void *arg) {
    struct watcher *w = arg;
    uint32_t status;
    do status = realm_events_watch(&w->place, w->handle, &w->waiter);
    while (status == REALM_MOVED);
    w->placed = status == REALM_PLACED;
    while ((status = realm_events_look(&w->place, w->handle)) == REALM_PENDING) {}
    want(status, REALM_POISONED, "look after the end");
    return 0;
}

static void *end(void *arg) {
    struct ender *e = arg;
    struct realm_held waiter = REALM_EMPTY;
    uint32_t number, status;
    want(realm_events_end(&e->pending, REALM_POISON), REALM_EVENTS_DONE, "end");
    want(realm_events_receipt(&e->pending, &e->receipt), REALM_EVENTS_DONE, "receipt");
    while ((status = realm_events_next(&e->pending, &waiter, &number)) == REALM_EVENTS_DONE) {
        e->caught++;
        realm_events_free(&waiter);
    }
    want(status, REALM_EVENTS_NONE, "next");
    return 0;
}

int main(int argc, char **argv) {
    uint32_t rounds = argc > 1 ? (uint32_t)strtoul(argv[1], 0, 10) : 100, number = 0, placed = 0;
    struct realm_held owner = REALM_EMPTY, pending = REALM_EMPTY;
    struct realm_handle first = REALM_NO_EVENT, last = REALM_NO_EVENT, told;
    want(realm_events_new(0, 4, 9, &owner), REALM_EVENTS_REFUSED, "no slots");
    want(realm_events_new(1, rounds + 1, rounds, &owner), REALM_EVENTS_DONE, "new");
    for (uint32_t round = 0; round < rounds; round++) {
        struct watcher w = {0};
        struct ender e = {0};
        pthread_t threads[2];
        want(realm_events_create(&owner, &e.pending, &w.handle), REALM_EVENTS_DONE, "create");
        want(realm_events_split(&owner, &w.place), REALM_EVENTS_DONE, "split");
        want(realm_events_waiter(&owner, &w.waiter, &number), REALM_EVENTS_DONE, "waiter");
        want(number, round, "number");
        want(w.handle.gen, round, "generation");
        if (pthread_create(&threads[0], 0, watch, &w) || pthread_create(&threads[1], 0, end, &e)) return 2;
        pthread_join(threads[0], 0);
        pthread_join(threads[1], 0);
        want(e.caught, w.placed, "caught");
        placed += w.placed;
        want(realm_events_learn(&owner, &e.receipt, &told), REALM_POISON, "learn");
        want(told.gen, round, "told");
        want(realm_events_join(&owner, &w.place), REALM_EVENTS_DONE, "join");
        want(realm_events_join(&owner, &e.pending), REALM_EVENTS_DONE, "join of what ended");
        if (w.waiter.at) realm_events_free(&w.waiter);
        if (round == 0) first = w.handle;
    }
    /* one more event, on which a waiter stands for good */
    struct realm_held waiter = REALM_EMPTY;
    want(realm_events_create(&owner, &pending, &last), REALM_EVENTS_DONE, "create the last");
    want(realm_events_waiter(&owner, &waiter, &number), REALM_EVENTS_DONE, "the last waiter");
    want(realm_events_watch(&owner, last, &waiter), REALM_PLACED, "watch the last");
    want(realm_events_close(&owner), REALM_EVENTS_REFUSED, "close beside a pending");
    want(realm_events_leave(&pending), REALM_EVENTS_DONE, "leave");
    want(realm_events_join(&owner, &pending), REALM_EVENTS_DONE, "join of what was left");
    want(realm_events_look(&owner, last), REALM_PENDING, "look at what was left");
    want(realm_events_close(&owner), REALM_EVENTS_DONE, "close");
    want(realm_events_closed_look(&owner, first), rounds ? REALM_POISONED : REALM_TRIGGERED, "the first");
    want(realm_events_closed_look(&owner, last), REALM_PENDING, "the last");
    want(realm_events_closed_place(&owner, number, &told), REALM_EVENTS_DONE, "where the last waiter stands");
    want(told.gen, last.gen, "its generation");
    if (rounds) want(realm_events_closed_place(&owner, 0, &told), REALM_EVENTS_NONE, "where the first waiter stands");
    realm_events_free(&owner);
    fprintf(stderr, "placed %u of %u\n", placed, rounds);
    printf("%u rounds: as many caught as placed\n", rounds);
    return 0;
}
