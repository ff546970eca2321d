/* The calls on events: numbers are looked up in the table of handles, their kinds and their tables are compared, and the proved
   calls do the rest. No lock is held here; what is entered is this call's alone.

   The clauses ask that a place has seen an event before it looks at it, and speak of what was brought to it by calls. Here an event
   is known where it was created, which `created` tells all threads: it is raised behind the proved call that creates, and loaded
   before one that looks, in one order of all steps on it, so the look finds the slot as it was created or later. That a place
   answers rightly for an event that no call brought it rests on this, and on tests; no clause says it. */
#include "proved_calls.h"
#include <stdlib.h>

enum { PLACES = KIND_PLACE | KIND_OWNER };
enum { ANY_KIND = PLACES | KIND_PENDING | KIND_WAITER | KIND_ENDED | KIND_RECEIPT | KIND_CLOSED };
enum { MOST_EVENT_SLOTS = 8192 };
#define NO_SLOT UINT32_MAX

/* What all handles of one table of events share; the last of them frees it. */
struct realm_table {
    _Atomic uint32_t users;
    uint64_t number;              /* of all tables of the process */
    uint32_t slots;
    _Atomic uint64_t created[];   /* by slot: how many of its generations were created */
};

static _Atomic uint64_t tables, threads;
static _Thread_local uint64_t this_thread;

/* The number of the calling thread, which no other has or had. */
static uint64_t thread_number(void) {
    if (!this_thread) this_thread = ++threads;
    return this_thread;
}

static struct realm_table *make_table(uint32_t slots) {
    if (slots == 0 || slots > MOST_EVENT_SLOTS) slots = 1;   /* (the proved call refuses it) */
    struct realm_table *table = calloc(1, sizeof *table + slots * sizeof table->created[0]);
    if (!table) return 0;
    table->users = 1;
    table->number = ++tables;
    table->slots = slots;
    return table;
}

static void leave_table(struct realm_table *table) {
    if (--table->users == 0) free(table);
}

/* Gives an entry up with its part of the table, and empties its handle. */
static void let_go(struct realm_entry *entry, uint64_t *handle) {
    struct realm_table *table = entry->table;
    realm_release(entry, handle);
    leave_table(table);
}

static int is_no_event(struct realm_handle event) { return event.slot == NO_SLOT && event.gen == 0; }

/* Whether an event is of this table and was created: DID or a misuse. */
static uint32_t known(struct realm_table *table, struct realm_handle event) {
    if (is_no_event(event)) return REALM_DID;
    if (event.table != table->number) return REALM_MISUSE_OTHER_RUN;
    return event.slot < table->slots && event.gen < table->created[event.slot] ? REALM_DID : REALM_MISUSE_RANGE;
}

static struct proved_event beneath(struct realm_handle event) { return (struct proved_event){event.slot, event.gen}; }

static struct realm_handle above(struct realm_table *table, struct proved_event event) {
    return (struct realm_handle){event.slot, event.gen, table->number};
}

/* Fills a handle with what a call at a table has put into a reserved entry, or gives the entry back. */
static uint32_t fill(struct realm_entry *made, uint32_t kind, struct realm_table *table, uint32_t status, struct realm_held *out) {
    if (status == REALM_DID) {
        made->table = table;
        table->users++;
    }
    return realm_fill(made, kind, status, &out->at);
}

uint32_t realm_events_new(uint32_t slots, uint32_t waiters, uint32_t last_gen, struct realm_held *out_owner) {
    struct realm_entry *made;
    uint32_t status = realm_reserve(&out_owner->at, &made);
    if (status) return status;
    struct realm_table *table = make_table(slots);
    if (!table) return realm_fill(made, KIND_OWNER, REALM_NO_MEMORY_LEFT, &out_owner->at);
    status = fill(made, KIND_OWNER, table, proved_realm_events_new(slots, waiters, last_gen, &made->held), out_owner);
    leave_table(table);
    return status;
}

uint32_t realm_events_split(struct realm_held *place, struct realm_held *out_place) {
    struct realm_entry *entry, *made;
    uint32_t status = realm_enter(&place->at, PLACES, &entry);
    if (status) return status;
    status = realm_reserve(&out_place->at, &made);
    if (status == REALM_DID) status = fill(made, KIND_PLACE, entry->table, proved_realm_events_split(&entry->held, &made->held), out_place);
    realm_leave(entry);
    return status;
}

/* Enters two handles of one table. DID or a misuse. */
static uint32_t enter_pair(struct realm_held *place, struct realm_entry **entry,
                           struct realm_held *other, uint32_t kinds, struct realm_entry **second) {
    uint32_t status = realm_enter_both(&place->at, PLACES, entry, &other->at, kinds, second);
    if (status || (*entry)->table == (*second)->table) return status;
    realm_leave(*second);
    realm_leave(*entry);
    return REALM_MISUSE_OTHER_RUN;
}

uint32_t realm_events_join(struct realm_held *place, struct realm_held *other) {
    struct realm_entry *entry, *used;
    uint32_t status = enter_pair(place, &entry, other, KIND_PLACE, &used);
    if (status) return status;
    status = proved_realm_events_join(&entry->held, &used->held);
    let_go(used, &other->at);
    realm_leave(entry);
    return status;
}

/* Notes what was created, behind the proved call. One owner alone creates, so nobody else writes. */
static void note_created(struct realm_table *table, struct proved_event event) {
    table->created[event.slot] = (uint64_t)event.gen + 1;
}

uint32_t realm_events_create(struct realm_held *owner, struct realm_held *out_pending, struct realm_handle *handle) {
    struct realm_entry *entry, *made;
    struct proved_event event = {0, 0};
    uint32_t status = realm_enter(&owner->at, KIND_OWNER, &entry);
    if (status) return status;
    status = realm_reserve(&out_pending->at, &made);
    if (status == REALM_DID) {
        status = proved_realm_events_create(&entry->held, &made->held, &event);
        if (status == REALM_DID) {
            note_created(entry->table, event);
            *handle = above(entry->table, event);
        }
        fill(made, KIND_PENDING, entry->table, status, out_pending);
    }
    realm_leave(entry);
    return status;
}

uint32_t realm_events_waiter(struct realm_held *owner, struct realm_held *out_waiter, uint32_t *number) {
    struct realm_entry *entry, *made;
    uint32_t status = realm_enter(&owner->at, KIND_OWNER, &entry);
    if (status) return status;
    status = realm_reserve(&out_waiter->at, &made);
    if (status == REALM_DID)
        status = fill(made, KIND_WAITER, entry->table, proved_realm_events_waiter(&entry->held, &made->held, number), out_waiter);
    realm_leave(entry);
    return status;
}

uint32_t realm_events_watch(struct realm_held *place, struct realm_handle handle, struct realm_held *waiter) {
    struct realm_entry *entry, *placed;
    uint32_t status = enter_pair(place, &entry, waiter, KIND_WAITER, &placed);
    if (status) return status;
    status = known(entry->table, handle);
    if (status == REALM_DID && (status = proved_realm_events_watch(&entry->held, beneath(handle), &placed->held)) == REALM_PLACED) {
        let_go(placed, &waiter->at);
    } else {
        realm_leave(placed);
    }
    realm_leave(entry);
    return status;
}

/* Turns a pending into what it is behind a call that uses it up. */
static uint32_t use_pending(struct realm_held *pending, uint32_t kind, uint32_t fate) {
    struct realm_entry *entry;
    uint32_t status = realm_enter(&pending->at, KIND_PENDING, &entry);
    if (status) return status;
    status = kind == KIND_ENDED ? proved_realm_events_end(&entry->held, fate) : proved_realm_events_leave(&entry->held);
    entry->kind = kind;
    realm_leave(entry);
    return status;
}

uint32_t realm_events_end(struct realm_held *pending, uint32_t fate) {
    return fate > REALM_POISON ? (uint32_t)REALM_MISUSE_RANGE : use_pending(pending, KIND_ENDED, fate);
}

uint32_t realm_events_leave(struct realm_held *pending) { return use_pending(pending, KIND_PLACE, REALM_OK); }

uint32_t realm_events_next(struct realm_held *ended, struct realm_held *out_waiter, uint32_t *number) {
    struct realm_entry *entry, *made;
    uint32_t status = realm_enter(&ended->at, KIND_ENDED, &entry);
    if (status) return status;
    status = realm_reserve(&out_waiter->at, &made);
    if (status == REALM_DID) {
        status = fill(made, KIND_WAITER, entry->table, proved_realm_events_next(&entry->held, &made->held, number), out_waiter);
        if (status == REALM_EVENTS_NONE) entry->kind = KIND_PLACE;
    }
    realm_leave(entry);
    return status;
}

uint32_t realm_events_receipt(struct realm_held *ended, struct realm_held *out_receipt) {
    struct realm_entry *entry, *made;
    uint32_t status = realm_enter(&ended->at, KIND_ENDED, &entry);
    if (status) return status;
    status = realm_reserve(&out_receipt->at, &made);
    if (status == REALM_DID)
        status = fill(made, KIND_RECEIPT, entry->table, proved_realm_events_receipt(&entry->held, &made->held), out_receipt);
    realm_leave(entry);
    return status;
}

uint32_t realm_events_learn(struct realm_held *place, struct realm_held *receipt, struct realm_handle *handle) {
    struct realm_entry *entry, *told;
    struct proved_event event = {0, 0};
    uint32_t status = enter_pair(place, &entry, receipt, KIND_RECEIPT, &told);
    if (status) return status;
    status = proved_realm_events_learn(&entry->held, &told->held, &event);
    *handle = above(entry->table, event);
    let_go(told, &receipt->at);
    realm_leave(entry);
    return status;
}

uint32_t realm_events_look(struct realm_held *place, struct realm_handle handle) {
    struct realm_entry *entry;
    uint32_t status = realm_enter(&place->at, PLACES, &entry);
    if (status) return status;
    status = known(entry->table, handle);
    if (status == REALM_DID) status = proved_realm_events_look(&entry->held, beneath(handle));
    realm_leave(entry);
    return status;
}

uint32_t realm_events_close(struct realm_held *owner) {
    struct realm_entry *entry;
    uint32_t status = realm_enter(&owner->at, KIND_OWNER, &entry);
    if (status) return status;
    status = proved_realm_events_close(&entry->held);
    if (status == REALM_DID) {
        entry->kind = KIND_CLOSED;
        entry->thread = thread_number();
    }
    realm_leave(entry);
    return status;
}

/* Enters what a table left, by the thread that closed it. DID or a misuse. */
static uint32_t enter_closed(struct realm_held *closed, struct realm_entry **entry) {
    uint32_t status = realm_enter(&closed->at, KIND_CLOSED, entry);
    if (status || (*entry)->thread == thread_number()) return status;
    realm_leave(*entry);
    return REALM_MISUSE_OTHER_THREAD;
}

uint32_t realm_events_closed_look(struct realm_held *closed, struct realm_handle handle) {
    struct realm_entry *entry;
    uint32_t status = enter_closed(closed, &entry);
    if (status) return status;
    status = known(entry->table, handle);
    if (status == REALM_DID) status = proved_realm_events_closed_look(&entry->held, beneath(handle));
    realm_leave(entry);
    return status;
}

uint32_t realm_events_closed_place(struct realm_held *closed, uint32_t waiter, struct realm_handle *handle) {
    struct realm_entry *entry;
    struct proved_event event = {0, 0};
    uint32_t status = enter_closed(closed, &entry);
    if (status) return status;
    status = proved_realm_events_closed_place(&entry->held, waiter, &event);
    if (status == REALM_DID) *handle = above(entry->table, event);
    realm_leave(entry);
    return status;
}

uint32_t realm_events_free(struct realm_held *held) {
    struct realm_entry *entry;
    uint32_t status = realm_enter(&held->at, ANY_KIND, &entry);
    if (status) return status;
    if (entry->kind == KIND_CLOSED && entry->thread != thread_number()) {
        realm_leave(entry);
        return REALM_MISUSE_OTHER_THREAD;
    }
    proved_realm_events_free(&entry->held);
    let_go(entry, &held->at);
    return REALM_EVENTS_DONE;
}
