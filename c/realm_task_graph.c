/* The present window of a runtime of tasks as the text of a graph. No lock is taken: what it reads only who has entered the runtime
   changes. One column of data stands for all pieces; a piece is a point of it. */
#include "realm_task_runtime.h"
#include <stdarg.h>
#include <stdio.h>
#include <stdlib.h>
#include <string.h>

enum { WORDS = REALM_WINDOW / 64, LONGEST = 128 };

/* What is written, as far as there is room. */
struct text { uint8_t *out; size_t room; uint64_t written; };

static void put(struct text *text, const char *form, ...) {
    char line[LONGEST];
    va_list more;
    va_start(more, form);
    size_t length = (size_t)vsnprintf(line, sizeof line, form, more), left = text->written < text->room ? text->room - text->written : 0;
    va_end(more);
    if (left) memcpy(text->out + text->written, line, length < left ? length : left);
    text->written += length;
}

/* Of each task which it depends on, a bit each. */
struct earlier { uint64_t bits[WORDS]; };

static int has(const struct earlier *set, uint32_t task) { return set->bits[task / 64] >> task % 64 & 1; }

static int depends(const struct realm_record *earlier, const struct realm_record *later) {
    for (uint32_t i = 0; i < earlier->count; i++)
        for (uint32_t j = 0; j < later->count; j++)
            if ((earlier->pieces[i].writes || later->pieces[j].writes) && realm_pieces_meet(&earlier->pieces[i], &later->pieces[j])) return 1;
    return 0;
}

/* The tasks that each depends on, but those on which one depends that it depends on too. */
static void find_sources(const struct realm_runtime *rt, struct earlier *all, struct earlier *sources) {
    for (uint32_t task = 0; task < rt->count; task++) {
        struct earlier behind = {{0}};
        for (uint32_t it = task; it-- > 0;) {
            if (!depends(&rt->records[it], &rt->records[task])) continue;
            all[task].bits[it / 64] |= 1ull << it % 64;
            if (!has(&behind, it)) sources[task].bits[it / 64] |= 1ull << it % 64;
            for (uint32_t w = 0; w < WORDS; w++) behind.bits[w] |= all[it].bits[w];
        }
    }
}

/* The number of a task's body among the different ones, in the order in which they come first. */
static uint32_t body_number(const struct realm_runtime *rt, uint32_t task) {
    uint32_t number = 0;
    for (uint32_t it = 0; rt->records[it].body != rt->records[task].body; it++) {
        int is_first = 1;
        for (uint32_t k = 0; k < it; k++) is_first &= rt->records[k].body != rt->records[it].body;
        number += (uint32_t)is_first;
    }
    return number;
}

static const struct realm_datum *datum_of(const struct realm_runtime *rt, const struct realm_record *record, uint32_t k) {
    return &rt->data.places[record->places[k]];
}

static int is_whole(const struct realm_datum *datum, const struct realm_piece *piece) { return piece->count == datum->tiles; }

static void put_space_name(struct text *text, const struct realm_datum *datum, const struct realm_piece *piece) {
    put(text, "d%llu", (unsigned long long)datum->number);
    if (!is_whole(datum, piece)) put(text, "_%u", piece->first - datum->first);
}

/* Whether the space of a use was written before: seen has a mark for each piece, and one for each datum by its first. */
static int is_seen(uint8_t *seen, const struct realm_datum *datum, const struct realm_piece *piece) {
    uint8_t mark = is_whole(datum, piece) ? 2 : 1, was = seen[piece->first];
    seen[piece->first] |= mark;
    return (was & mark) != 0;
}

static void put_spaces(struct text *text, const struct realm_runtime *rt, uint8_t *seen) {
    put(text, "space all 0..%u\n", rt->data.pieces ? rt->data.pieces - 1 : 0);
    for (uint32_t task = 0; task < rt->count; task++)
        for (uint32_t k = 0; k < rt->records[task].count; k++) {
            const struct realm_datum *datum = datum_of(rt, &rt->records[task], k);
            const struct realm_piece *piece = &rt->records[task].pieces[k];
            if (is_seen(seen, datum, piece)) continue;
            put(text, "space ");
            put_space_name(text, datum, piece);
            put(text, " %u..%u\n", piece->first, piece->first + piece->count - 1);
        }
    put(text, "data D all x\n");
}

static void put_call(struct text *text, const struct realm_runtime *rt, uint32_t task, const struct earlier *sources) {
    const struct realm_record *record = &rt->records[task];
    const char *word = " on";
    put(text, "k%u = call body%u", task, body_number(rt, task));
    for (uint32_t k = 0; k < record->count; k++) {
        put(text, " %s D.x ", record->pieces[k].writes ? "write" : "read");
        put_space_name(text, datum_of(rt, record, k), &record->pieces[k]);
    }
    for (uint32_t it = 0; it < task; it++) {
        if (!has(sources, it)) continue;
        put(text, "%s k%u", word, it);
        word = "";
    }
    put(text, "\n");
}

static uint32_t put_graph(const struct realm_runtime *rt, struct text *text) {
    struct earlier *all = calloc(2 * REALM_WINDOW, sizeof *all), *sources = all + REALM_WINDOW;
    uint8_t *seen = calloc((size_t)rt->data.pieces + 1, 1);
    uint32_t status = all && seen ? REALM_DID : REALM_NO_MEMORY_LEFT;
    if (status == REALM_DID) {
        find_sources(rt, all, sources);
        put(text, "realm 3\n");
        put_spaces(text, rt, seen);
        for (uint32_t task = 0; task < rt->count; task++) put_call(text, rt, task, &sources[task]);
        put(text, "end\n");
    }
    free(seen);
    free(all);
    return status;
}

uint32_t realm_tasks_graph(struct realm_tasks *tasks, uint8_t *out, size_t room, uint64_t *written) {
    struct realm_entry *entry;
    struct realm_runtime *rt;
    *written = 0;
    uint32_t status = realm_enter_tasks(tasks, &entry, &rt);
    if (status) return status;
    struct text text = {out, room, 0};
    status = put_graph(rt, &text);
    *written = text.written;
    realm_leave(entry);
    return status || text.written <= room ? status : (uint32_t)REALM_TASKS_NO_ROOM;
}
