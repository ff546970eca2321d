/* The table of handles, which the calls on runs, works and events share. Inside of the library alone. */
#ifndef REALM_HANDLES_H
#define REALM_HANDLES_H
#include "realm_misuse.h"
#include <stdatomic.h>
#include <stdint.h>

enum { REALM_DID = 0, REALM_NO_MEMORY_LEFT = 7 };

/* What an entry holds; a set of kinds is a sum of them. */
enum realm_kind {
    KIND_RUN = 1, KIND_WORK = 2, KIND_PLACE = 4, KIND_OWNER = 8, KIND_PENDING = 16, KIND_WAITER = 32, KIND_ENDED = 64,
    KIND_RECEIPT = 128, KIND_CLOSED = 256, KIND_TASKS = 512
};

/* What a proved call reads and writes in the place of a handle. In an entry for tasks it leads to their runtime. */
struct proved_held { void *at; };

/* An entry of the table. All but `word` belongs to who entered it or has just reserved it. */
struct realm_entry {
    _Atomic uint64_t word;      /* its generation, and whether it is free, held or in use */
    uint32_t index, next_free;
    uint32_t kind;
    struct proved_held held;
    uint64_t run;               /* of work: the number of its run */
    struct realm_table *table;  /* of events: their table */
    uint64_t thread;            /* of a closed table: who closed it */
};

#pragma GCC visibility push(hidden)

/* Enters what a handle names, of one of these kinds: no other call gets in until it is left or released. DID or a misuse. */
uint32_t realm_enter(const uint64_t *handle, uint32_t kinds, struct realm_entry **out);

/* Enters two, or none of them. */
uint32_t realm_enter_both(const uint64_t *first, uint32_t first_kinds, struct realm_entry **first_out,
                          const uint64_t *second, uint32_t second_kinds, struct realm_entry **second_out);

void realm_leave(struct realm_entry *entry);

/* Frees an entry that was entered: its number names nothing from then on, and the handle is empty. */
void realm_release(struct realm_entry *entry, uint64_t *handle);

/* Reserves an entry for what a call makes, where the handle that is to be filled names nothing. DID, FILLED, NO_MEMORY_LEFT. */
uint32_t realm_reserve(const uint64_t *handle, struct realm_entry **out);

/* Fills the handle with what a call has put into the reserved entry, or gives the entry back where the call's status is not DID. */
uint32_t realm_fill(struct realm_entry *made, uint32_t kind, uint32_t status, uint64_t *handle);

/* The number of an entry that is entered or reserved. */
uint64_t realm_number(const struct realm_entry *entry);

/* Whether a number names something, in use or not. */
int realm_is_held(uint64_t number);

#pragma GCC visibility pop
#endif
