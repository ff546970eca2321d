/* The table of handles. A handle is a number: the place of an entry, and the entry's generation, which no two tenants share.

   Locks: `making` is the only one. It is held while an entry is reserved or freed, and within it no other lock is taken and no
   proved call made. Entering takes no lock: one step on the entry's word turns it from held to in use, and fails where it is
   anything else. So no call waits for another, a call that needs two entries can't block, and one thread alone has what is
   entered, which is the exclusivity that the proved calls ask for. The steps on words are sequentially consistent: who enters
   sees what was done by who left.

   The number in a handle is read and written by single steps too, so threads that share a handle get an answer. Chunks of entries are
   never moved and never freed, so a number that names nothing is still looked up safely. */
#include "realm_handles.h"
#include <pthread.h>
#include <stdlib.h>

enum { IS_FREE = 0, IS_HELD = 1, IS_IN_USE = 2, STATES = 4 };
enum { CHUNK = 1024, MOST_CHUNKS = 65536 };
#define LAST_GENERATION UINT32_MAX
#define NO_ENTRY UINT32_MAX

static pthread_mutex_t making = PTHREAD_MUTEX_INITIALIZER;
static struct realm_entry *_Atomic chunks[MOST_CHUNKS];
static uint32_t chunk_count;             /* under `making` */
static uint32_t first_free = NO_ENTRY;   /* under `making` */

static uint64_t generation_of(uint64_t word) { return word / STATES; }

static uint64_t word_of(uint64_t number, uint64_t state) { return (number >> 32) * STATES + state; }

/* The entry of a number, or null where no call can have given it. */
static struct realm_entry *entry_of(uint64_t number) {
    uint32_t place = (uint32_t)number;
    if (place == 0 || (place - 1) / CHUNK >= MOST_CHUNKS) return 0;
    struct realm_entry *chunk = chunks[(place - 1) / CHUNK];
    return chunk ? &chunk[(place - 1) % CHUNK] : 0;
}

uint64_t realm_number(const struct realm_entry *entry) {
    return generation_of(entry->word) << 32 | (entry->index + 1);
}

static uint64_t number_in(const uint64_t *handle) { return __atomic_load_n(handle, __ATOMIC_SEQ_CST); }

/* Empties a handle, unless it was filled otherwise meanwhile. */
static void clear(uint64_t *handle, uint64_t number) {
    __atomic_compare_exchange_n(handle, &number, 0, 0, __ATOMIC_SEQ_CST, __ATOMIC_SEQ_CST);
}

uint32_t realm_enter(const uint64_t *handle, uint32_t kinds, struct realm_entry **out) {
    uint64_t number = number_in(handle);
    if (number == 0) return REALM_MISUSE_EMPTY;
    struct realm_entry *entry = entry_of(number);
    if (!entry) return REALM_MISUSE_USED_UP;
    uint64_t word = word_of(number, IS_HELD);
    if (!atomic_compare_exchange_strong(&entry->word, &word, word_of(number, IS_IN_USE)))
        return word == word_of(number, IS_IN_USE) ? REALM_MISUSE_IN_USE : REALM_MISUSE_USED_UP;
    if (!(entry->kind & kinds)) {
        realm_leave(entry);
        return REALM_MISUSE_WRONG;
    }
    *out = entry;
    return REALM_DID;
}

uint32_t realm_enter_both(const uint64_t *first, uint32_t first_kinds, struct realm_entry **first_out,
                          const uint64_t *second, uint32_t second_kinds, struct realm_entry **second_out) {
    uint32_t status = realm_enter(first, first_kinds, first_out);
    if (status) return status;
    status = realm_enter(second, second_kinds, second_out);
    if (status) realm_leave(*first_out);
    return status;
}

void realm_leave(struct realm_entry *entry) {
    entry->word = generation_of(entry->word) * STATES + IS_HELD;
}

/* Makes one more chunk of free entries. 0 where there is no memory, or no room in the table. */
static int make_chunk(void) {
    if (chunk_count == MOST_CHUNKS) return 0;
    struct realm_entry *chunk = calloc(CHUNK, sizeof *chunk);
    if (!chunk) return 0;
    for (uint32_t i = 0; i < CHUNK; i++) {
        chunk[i].index = chunk_count * CHUNK + i;
        chunk[i].next_free = i + 1 < CHUNK ? chunk[i].index + 1 : first_free;
    }
    first_free = chunk_count * CHUNK;
    chunks[chunk_count++] = chunk;
    return 1;
}

int realm_is_held(uint64_t number) {
    struct realm_entry *entry = number ? entry_of(number) : 0;
    if (!entry) return 0;
    uint64_t word = entry->word;
    return word % STATES != IS_FREE && generation_of(word) == number >> 32;
}

uint32_t realm_reserve(const uint64_t *handle, struct realm_entry **out) {
    if (realm_is_held(number_in(handle))) return REALM_MISUSE_FILLED;
    struct realm_entry *entry = 0;
    pthread_mutex_lock(&making);
    if (first_free != NO_ENTRY || make_chunk()) {
        entry = &chunks[first_free / CHUNK][first_free % CHUNK];
        first_free = entry->next_free;
    }
    pthread_mutex_unlock(&making);
    if (!entry) return REALM_NO_MEMORY_LEFT;
    entry->held.at = 0;
    entry->run = 0;
    entry->table = 0;
    *out = entry;
    return REALM_DID;
}

/* Frees an entry. One that has had each generation is given to nobody any more. */
static void give_back(struct realm_entry *entry) {
    uint64_t generation = generation_of(entry->word);
    if (generation == LAST_GENERATION) {
        entry->word = generation * STATES + IS_FREE;
        return;
    }
    entry->word = (generation + 1) * STATES + IS_FREE;
    pthread_mutex_lock(&making);
    entry->next_free = first_free;
    first_free = entry->index;
    pthread_mutex_unlock(&making);
}

void realm_release(struct realm_entry *entry, uint64_t *handle) {
    uint64_t number = realm_number(entry);
    give_back(entry);
    clear(handle, number);
}

uint32_t realm_fill(struct realm_entry *made, uint32_t kind, uint32_t status, uint64_t *handle) {
    uint64_t number = 0;
    if (status == REALM_DID) {
        made->kind = kind;
        number = realm_number(made);
        realm_leave(made);
    } else {
        give_back(made);
    }
    __atomic_store_n(handle, number, __ATOMIC_SEQ_CST);
    return status;
}
