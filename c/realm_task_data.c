/* The data of a runtime of tasks: which bytes they are, and by which pieces the proved calls know them. No lock is taken here but within
   them (add_pieces, status): who has entered the runtime has the data alone.

   A datum is given its pieces as a task first names it: one for each tile. Pieces of a datum that is freed or cut anew are given to
   others, but not within the window in which a task last named them: what depends on that task there would else be what has nothing
   to do with it. */
#define _GNU_SOURCE
#include "realm_task_runtime.h"
#include <stdlib.h>
#include <string.h>
#include <sys/mman.h>
#include <unistd.h>

uint32_t realm_find_datum(struct realm_runtime *rt, struct realm_data data, struct realm_datum **datum) {
    if (data.of == 0) return REALM_MISUSE_EMPTY;
    if (data.of != rt->number) return REALM_MISUSE_OTHER_RUN;
    if (data.place >= rt->data.count) return REALM_MISUSE_USED_UP;
    *datum = &rt->data.places[data.place];
    return (*datum)->is_live && (*datum)->generation == data.generation ? REALM_DID : REALM_MISUSE_USED_UP;
}

/* Whether a handle that is to be filled holds something: of another runtime it can't be told what. */
static int is_filled(struct realm_runtime *rt, struct realm_data data) {
    struct realm_datum *datum;
    if (data.of == 0) return 0;
    return data.of == rt->number ? !realm_find_datum(rt, data, &datum) : realm_is_held(data.of);
}

/* The place in the order of the first datum that begins at an address or behind it. */
static uint32_t place_in_order(const struct realm_data_table *data, const uint8_t *pointer) {
    uint32_t low = 0, high = data->live;
    while (low < high) {
        uint32_t middle = low + (high - low) / 2;
        if (data->places[data->order[middle]].pointer < pointer) low = middle + 1;
        else high = middle;
    }
    return low;
}

static int overlaps(const struct realm_data_table *data, const uint8_t *pointer, size_t bytes) {
    uint32_t at = place_in_order(data, pointer);
    if (at < data->live && (size_t)(data->places[data->order[at]].pointer - pointer) < bytes) return 1;
    if (at == 0) return 0;
    const struct realm_datum *before = &data->places[data->order[at - 1]];
    return (size_t)(pointer - before->pointer) < realm_extent(before);
}

static int grow(void **list, size_t size, uint32_t count) {
    void *more = realloc(*list, size * count);
    if (more) *list = more;
    return more != 0;
}

static int is_free(const struct realm_datum *datum, uint64_t window) {
    return !datum->is_live && datum->named != window && datum->generation < UINT32_MAX;
}

/* A place that no datum has, and that no task of this window names. NO_MEMORY where there is none. */
static uint32_t find_place(struct realm_data_table *data, uint64_t window, uint32_t *place) {
    for (uint32_t i = data->live < data->count ? 0 : data->count; i < data->count; i++)
        if (is_free(&data->places[i], window)) return *place = i, REALM_DID;
    if (data->count == data->room) {
        if (data->room > UINT32_MAX / 4) return REALM_NO_MEMORY_LEFT;
        uint32_t room = data->room ? 2 * data->room : 16;
        if (!grow((void **)&data->places, sizeof *data->places, room)) return REALM_NO_MEMORY_LEFT;
        if (!grow((void **)&data->order, sizeof *data->order, room)) return REALM_NO_MEMORY_LEFT;
        if (!grow((void **)&data->free, sizeof *data->free, room + 2)) return REALM_NO_MEMORY_LEFT;
        data->room = room;
    }
    *place = data->count++;
    data->places[*place] = (struct realm_datum){0};
    return REALM_DID;
}

/* Puts a datum into a place, which is not in the order yet. */
static uint32_t put_datum(struct realm_runtime *rt, uint32_t place, uint8_t *pointer, size_t bytes, size_t mapped) {
    struct realm_datum *datum = &rt->data.places[place];
    *datum = (struct realm_datum){.pointer = pointer, .bytes = bytes, .tiles = 1, .number = rt->data.made, .generation = datum->generation, .mapped = mapped};
    return rt->guard ? realm_guard_watch(datum) : (uint32_t)REALM_DID;
}

static void put_in_order(struct realm_data_table *data, uint32_t place) {
    uint32_t at = place_in_order(data, data->places[place].pointer);
    memmove(&data->order[at + 1], &data->order[at], (data->live - at) * sizeof *data->order);
    data->order[at] = place;
    data->live++;
    data->made++;
    data->places[place].is_live = 1;
}

static uint32_t new_datum(struct realm_runtime *rt, void *pointer, size_t bytes, size_t mapped, struct realm_data *out) {
    uint32_t place, status;
    if (is_filled(rt, *out)) return REALM_MISUSE_FILLED;
    if (!pointer || !bytes || (uintptr_t)pointer + bytes - 1 < (uintptr_t)pointer) return REALM_MISUSE_RANGE;
    if (overlaps(&rt->data, pointer, bytes)) return REALM_MISUSE_OVERLAP;
    status = find_place(&rt->data, rt->windows, &place);
    if (status == REALM_DID) status = put_datum(rt, place, pointer, bytes, mapped);
    if (status) return status;
    put_in_order(&rt->data, place);
    *out = (struct realm_data){rt->number, place, rt->data.places[place].generation};
    return REALM_DID;
}

uint32_t realm_data_new(struct realm_tasks *tasks, void *pointer, size_t bytes, struct realm_data *data) {
    struct realm_entry *entry;
    struct realm_runtime *rt;
    uint32_t status = realm_enter_tasks(tasks, &entry, &rt);
    if (status) return status;
    status = new_datum(rt, pointer, bytes, 0, data);
    realm_leave(entry);
    return status;
}

/* Whole pages of zero bytes as a datum. */
static uint32_t alloc_datum(struct realm_runtime *rt, size_t bytes, void **pointer, struct realm_data *data) {
    size_t page = (size_t)sysconf(_SC_PAGESIZE), mapped = (bytes + page - 1) / page * page;
    if (!bytes || mapped < bytes) return REALM_MISUSE_RANGE;
    void *memory = mmap(0, mapped, PROT_READ | PROT_WRITE, MAP_PRIVATE | MAP_ANONYMOUS, -1, 0);
    if (memory == MAP_FAILED) return REALM_NO_MEMORY_LEFT;
    uint32_t status = new_datum(rt, memory, bytes, mapped, data);
    if (status) munmap(memory, mapped);
    else *pointer = memory;
    return status;
}

uint32_t realm_data_alloc(struct realm_tasks *tasks, size_t bytes, void **pointer, struct realm_data *data) {
    struct realm_entry *entry;
    struct realm_runtime *rt;
    uint32_t status = realm_enter_tasks(tasks, &entry, &rt);
    if (status) return status;
    status = alloc_datum(rt, bytes, pointer, data);
    realm_leave(entry);
    return status;
}

/* Whether a task that names the datum has not ended. */
static int is_needed(struct realm_runtime *rt, const struct realm_datum *datum) {
    uint32_t place = (uint32_t)(datum - rt->data.places), state;
    int found = 0;
    if (datum->named != rt->windows) return 0;
    realm_lock(rt);
    for (uint32_t task = 0; task < rt->count && !found; task++)
        for (uint32_t k = 0; k < rt->records[task].count; k++)
            if (rt->records[task].places[k] == place && !proved_realm_window_status(&rt->window, task, &state)) found |= state <= REALM_TASK_RUNNING;
    realm_unlock(rt);
    return found;
}

/* Takes a range out of those that are free, joined with another that it adjoins. 0 where it adjoins none. */
static int join_range(struct realm_data_table *data, struct realm_range *range) {
    for (uint32_t i = 0; i < data->free_count; i++) {
        struct realm_range *other = &data->free[i];
        if (other->first + other->count != range->first && range->first + range->count != other->first) continue;
        range->first = other->first < range->first ? other->first : range->first;
        range->count += other->count;
        range->named = other->named > range->named ? other->named : range->named;
        *other = data->free[--data->free_count];
        return 1;
    }
    return 0;
}

static void free_pieces(struct realm_data_table *data, struct realm_datum *datum) {
    struct realm_range range = {datum->first, datum->tiles, datum->named};
    if (!datum->has_pieces) return;
    while (join_range(data, &range)) {}
    data->free[data->free_count++] = range;
    datum->has_pieces = 0;
}

/* Finds pieces that are free again, and that no task of this window has named. */
static int reuse_pieces(struct realm_runtime *rt, struct realm_datum *datum) {
    struct realm_data_table *data = &rt->data;
    for (uint32_t i = 0; i < data->free_count; i++) {
        struct realm_range *range = &data->free[i];
        if (range->count < datum->tiles || range->named == rt->windows) continue;
        datum->first = range->first;
        range->first += datum->tiles;
        range->count -= datum->tiles;
        if (!range->count) *range = data->free[--data->free_count];
        return 1;
    }
    return 0;
}

static uint32_t add_pieces(struct realm_runtime *rt, struct realm_datum *datum) {
    struct realm_data_table *data = &rt->data;
    if (datum->tiles > UINT32_MAX - data->pieces) return REALM_MISUSE_RANGE;
    uint32_t wanted = data->pieces + datum->tiles;
    if (wanted > data->lost_room) {
        uint32_t room = data->lost_room > UINT32_MAX / 2 ? UINT32_MAX : 2 * data->lost_room;
        if (room < wanted) room = wanted;
        if (!grow((void **)&data->lost, 1, room)) return REALM_NO_MEMORY_LEFT;
        data->lost_room = room;
    }
    realm_lock(rt);
    uint32_t status = proved_realm_window_add_pieces(&rt->window, datum->tiles, &datum->first);
    realm_unlock(rt);
    if (status == REALM_DID) data->pieces = wanted;
    return status;
}

uint32_t realm_give_pieces(struct realm_runtime *rt, struct realm_datum *datum) {
    if (datum->has_pieces) return REALM_DID;
    uint32_t status = reuse_pieces(rt, datum) ? (uint32_t)REALM_DID : add_pieces(rt, datum);
    if (status) return status;
    memset(rt->data.lost + datum->first, 0, datum->tiles);
    datum->has_pieces = 1;
    return status;
}

/* Where each of the tiles ends. RANGE where one is empty, or they are not the datum's bytes together. */
static uint32_t ends_of(size_t bytes, uint32_t count, const size_t *sizes, size_t *ends) {
    size_t end = 0;
    for (uint32_t k = 0; k < count; k++) {
        if (!sizes[k] || sizes[k] > bytes - end) return REALM_MISUSE_RANGE;
        ends[k] = end += sizes[k];
    }
    return end == bytes ? REALM_DID : REALM_MISUSE_RANGE;
}

/* What was lost of tiles is lost of those that have a byte of them, where the datum is cut anew. */
static void carry_lost(struct realm_runtime *rt, const struct realm_datum *datum, const struct realm_datum *cut) {
    uint32_t i = 0, k = 0;
    if (!rt->has_lost || !datum->has_pieces) return;
    while (k < cut->tiles) {
        size_t end = realm_tile_at(datum, i + 1), cut_end = realm_tile_at(cut, k + 1);
        rt->data.lost[cut->first + k] |= rt->data.lost[datum->first + i];
        if (end <= cut_end) i++;
        if (cut_end <= end) k++;
    }
}

/* Cuts a datum that no task of the window names. */
static uint32_t cut_datum(struct realm_runtime *rt, struct realm_datum *datum, uint32_t count, const size_t *sizes) {
    if (!count || count > datum->bytes) return REALM_MISUSE_RANGE;
    size_t *ends = malloc(count * sizeof *ends);
    if (!ends) return REALM_NO_MEMORY_LEFT;
    struct realm_datum cut = *datum;
    cut.ends = ends;
    cut.tiles = count;
    cut.has_pieces = 0;
    uint32_t status = ends_of(datum->bytes, count, sizes, ends);
    if (status == REALM_DID) status = realm_give_pieces(rt, &cut);
    if (status == REALM_DID && rt->guard) status = realm_guard_watch(&cut);
    if (status) {
        free_pieces(&rt->data, &cut);
        free(ends);
        return status;
    }
    carry_lost(rt, datum, &cut);
    free_pieces(&rt->data, datum);
    free(datum->ends);
    if (rt->guard) free(datum->shadow);
    *datum = cut;
    return status;
}

uint32_t realm_data_tiles(struct realm_tasks *tasks, struct realm_data data, uint32_t count, const size_t *sizes) {
    struct realm_entry *entry;
    struct realm_runtime *rt;
    struct realm_datum *datum;
    uint32_t status = realm_enter_tasks(tasks, &entry, &rt);
    if (status) return status;
    status = realm_find_datum(rt, data, &datum);
    if (status == REALM_DID && datum->named == rt->windows) status = REALM_MISUSE_NEEDED;
    if (status == REALM_DID) status = cut_datum(rt, datum, count, sizes);
    realm_leave(entry);
    return status;
}

/* Gives back what a datum has of memory. */
static void release(struct realm_datum *datum) {
    free(datum->ends);
    free(datum->shadow);
    if (datum->mapped) munmap(datum->pointer, datum->mapped);
}

static void free_datum(struct realm_runtime *rt, struct realm_datum *datum) {
    struct realm_data_table *data = &rt->data;
    uint32_t at = place_in_order(data, datum->pointer);
    memmove(&data->order[at], &data->order[at + 1], (data->live - at - 1) * sizeof *data->order);
    data->live--;
    free_pieces(data, datum);
    release(datum);
    datum->is_live = 0;
    datum->generation++;
}

uint32_t realm_data_free(struct realm_tasks *tasks, struct realm_data *data) {
    struct realm_entry *entry;
    struct realm_runtime *rt;
    struct realm_datum *datum;
    uint32_t status = realm_enter_tasks(tasks, &entry, &rt);
    if (status) return status;
    status = realm_find_datum(rt, *data, &datum);
    if (status == REALM_DID && is_needed(rt, datum)) status = REALM_MISUSE_NEEDED;
    if (status == REALM_DID) {
        free_datum(rt, datum);
        *data = (struct realm_data){0, 0, 0};
    }
    realm_leave(entry);
    return status;
}

void realm_free_data(struct realm_runtime *rt) {
    for (uint32_t i = 0; i < rt->data.live; i++) release(&rt->data.places[rt->data.order[i]]);
    free(rt->data.places);
    free(rt->data.order);
    free(rt->data.free);
    free(rt->data.lost);
}
