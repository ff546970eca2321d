/* Generational events that threads share. What each call gives is a proved clause of the crate realm_events_c, but where this page
   says that it is tested; where it says `seen` or `knows`, that is the list of a seat of which the clauses speak.
   Link librealm_events.a or librealm.so.

   What is held is held by handles that are numbers. Whatever calls are made on them, in whatever order and by whatever threads,
   each does what stands beside it or answers a number of enum realm_misuse, with which nothing is changed and nothing lost:
   EMPTY, USED_UP, WRONG and IN_USE of each handle; FILLED where a handle that is to be filled holds something; OTHER_RUN where
   two handles, or a handle and an event, are of different tables; RANGE of an event that was not created. That is tested, not
   proved. No call waits for another: but to make and to free handles none takes a lock. */
#ifndef REALM_EVENTS_H
#define REALM_EVENTS_H
#include "realm_misuse.h"
#include <stdint.h>
#ifdef __cplusplus
extern "C" {
#endif

/* A handle of the program. Of zero bytes it is empty; only the calls below write it. One that is not empty holds one of

     owner     the right to create, the waiters that were not given out yet, and a place
     place     a thread's place at a table: what it has seen and knows. An owner is one too
     pending   the right to end one event; it is used up by realm_events_end or realm_events_leave
     waiter    a numbered waiter that stands on no event
     ended     the waiters that stood on an event as it ended and were not given yet, with its receipt
     receipt   that an event has ended, with its fate
     closed    what a table left as it was closed

   A copy of a handle names the same thing, and where that is used up each copy says so. A closed table stays with the thread
   that closed it: with any other its calls answer OTHER_THREAD. A place answers for each event that was created at its table
   before; that it does so for one that no split, join, learn or create brought it is tested, and no clause says it.

   What nothing checks, and the program must keep:
   - one call at a time reads or writes a struct, which is of zero bytes at first, or as a call left it;
   - memory of the program: the steps at a table are sequentially consistent, so what a thread wrote before realm_events_end another
     may read once look, watch, learn or next has told it of that end. No proof says it;
   - pointers are not null, and those of one call are apart;
   - malloc, realloc and free are those of one allocator, and its blocks are aligned to 16 bytes. No call is made from a
     signal handler, nor in a child that a process with threads has forked. */
struct realm_held { uint64_t at; };
#define REALM_EMPTY {0}

/* The handle of an event: plain data, which may be copied and kept for any time. A slot serves one event after another;
   each is one generation of it. Each table of a process has a number of its own. */
struct realm_handle { uint32_t slot, gen; uint64_t table; };

/* The handle of no event, which counts as seen by every place and as ended with Ok. These are the braces of an initializer:
   in an expression write (struct realm_handle)REALM_NO_EVENT, and in C++ realm_handle REALM_NO_EVENT. */
#define REALM_NO_EVENT {4294967295u, 0, 0}

enum realm_fate { REALM_OK = 0, REALM_POISON = 1 };
enum realm_look { REALM_TRIGGERED = 0, REALM_POISONED = 1, REALM_PENDING = 2 };
enum realm_watch { REALM_PLACED = 0, REALM_OVER = 1, REALM_OVER_POISON = 2, REALM_MOVED = 3 };
/* The answers of other calls, REALM_EVENTS_DONE and so on; below they stand without REALM_EVENTS. What is no right use is answered by a
   number of enum realm_misuse. */
enum realm_events_status {
    REALM_EVENTS_DONE = 0, REALM_EVENTS_NONE = 4, REALM_EVENTS_FULL = 5, REALM_EVENTS_NO_MEMORY = 7,
    REALM_EVENTS_REFUSED = 8, REALM_EVENTS_WRONG = REALM_MISUSE_WRONG
};

/* A table with so many slots (1 to 8,192) and waiters (at most 65,536), whose slots serve generation 0 to last_gen, with
   slots * (last_gen + 1) at most 536,870,912. Nothing was created in it.
   DONE; NO_MEMORY; REFUSED exactly where the numbers are beyond these limits. */
uint32_t realm_events_new(uint32_t slots, uint32_t waiters, uint32_t last_gen, struct realm_held *out_owner);

/* A second place at the table, which has seen and knows what this one does. DONE, NO_MEMORY. */
uint32_t realm_events_split(struct realm_held *place, struct realm_held *out_place);

/* The place gets all that the other has seen, knows, has placed and was given; the other is used up. Both are of one
   table, and the other is no owner. DONE. */
uint32_t realm_events_join(struct realm_held *place, struct realm_held *other);

/* A new event with the right to end it. The owner, and places that are split off it from then on, have seen its handle.
   DONE; FULL where each slot was found pending, or retired after its last generation; NO_MEMORY, and then nothing changed. */
uint32_t realm_events_create(struct realm_held *owner, struct realm_held *out_pending, struct realm_handle *handle);

/* The next waiter with its number, from 0. DONE; NONE exactly where all were given; NO_MEMORY, and then nothing changed. */
uint32_t realm_events_waiter(struct realm_held *owner, struct realm_held *out_waiter, uint32_t *number);

/* Places a waiter of the table on an event.
   PLACED: it stands there, the event's end will catch it, and the handle of the waiter is empty. Another thread may be given the
   waiter before this call returns, so realm_events_next is to fill another struct than the one that is passed here: pass a copy.
   OVER, OVER_POISON: the event has ended with this fate, which the place then knows; the waiter stays.
   MOVED: the event is pending, and its slot's word changed meanwhile; the waiter stays. Call again. */
uint32_t realm_events_watch(struct realm_held *place, struct realm_handle handle, struct realm_held *waiter);

/* Ends the event, with poison where fate is 1. The handle is then an `ended`. Takes no memory. DONE. Misuse: RANGE where fate is neither
   0 nor 1. */
uint32_t realm_events_end(struct realm_held *pending, uint32_t fate);

/* Gives up the right to end the event, which stays pending for good. The handle is then a place. DONE. */
uint32_t realm_events_leave(struct realm_held *pending);

/* A waiter that stood on the event as it ended, with its number; each is given once.
   DONE; NONE where all were given, and the handle is then a place that knows of the end; NO_MEMORY, and nothing changed. */
uint32_t realm_events_next(struct realm_held *ended, struct realm_held *out_waiter, uint32_t *number);

/* A receipt of the end, of which there may be any number. DONE; NO_MEMORY, and then nothing changed. */
uint32_t realm_events_receipt(struct realm_held *ended, struct realm_held *out_receipt);

/* The place learns of the end that a receipt of its table tells: it has then seen the handle and knows the fate, for
   good. The receipt is used up. The answer is the fate, 0 or 1. */
uint32_t realm_events_learn(struct realm_held *place, struct realm_held *receipt, struct realm_handle *handle);

/* What becomes of an event: TRIGGERED or POISONED as it ended, which the place then knows;
   PENDING only where the slot's word, as this call loaded it, showed it pending and the place did not know of an end. */
uint32_t realm_events_look(struct realm_held *place, struct realm_handle handle);

/* Closes the table. DONE: the handle is then a `closed`, and answers for each event that was created. REFUSED: nothing
   changed. It comes where another place, pending or ended handle of the table is still held: free or join it first. That it
   comes exactly then is not proved. Takes no memory. */
uint32_t realm_events_close(struct realm_held *owner);

/* What became of an event that was created in the closed table: as of a look. */
uint32_t realm_events_closed_look(struct realm_held *closed, struct realm_handle handle);

/* The pending event on which the waiter of this number still stood. DONE; NONE exactly where it stood on none. */
uint32_t realm_events_closed_place(struct realm_held *closed, uint32_t waiter, struct realm_handle *handle);

/* Frees what a handle holds; it is empty then. DONE. A pending that is freed leaves its event pending for
   good, an `ended` loses the waiters that it did not give. */
uint32_t realm_events_free(struct realm_held *held);

#ifdef __cplusplus
}
#endif
#endif
