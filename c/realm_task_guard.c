/* The guard of a runtime of tasks: it tests that bodies keep to what their tasks declared. It performs one task at a time, in the thread
   that waits.

   Whole pages within a tile are barred while no task performs that declared the tile, and barred for writing while one does that only
   reads it. An access to such a page raises SIGSEGV; the handler tells it, opens the tile until the body has ended, and the access goes
   on. What lies outside of whole pages is compared with a shadow behind each body, as are pages that the system doesn't bar.

   Locks: `installing` alone, around the handler's installation and the list of guards; no other is taken within it. The handler takes
   none. The data of a guard that is on do not change their places, since who waits has entered the runtime. A thread that runs no
   body of a guard and touches a barred page, which is against the header, has it opened and goes on. */
#define _GNU_SOURCE
#include "realm_task_runtime.h"
#include <errno.h>
#include <signal.h>
#include <stdlib.h>
#include <string.h>
#include <sys/mman.h>
#include <ucontext.h>
#include <unistd.h>

/* Barred are so many ranges of pages at most: the system has no more than 65,530 mostly, and each makes two. */
enum { MOST_GUARDS = 64, MOST_RANGES = 8192 };
enum mark { NOT_DECLARED = 0, DECLARED_TO_READ = 1, DECLARED_TO_WRITE = 2 };
/* NEVER: the system did not bar it, or too many others are barred. */
enum bar { IS_OPEN = 0, BARS_WRITING = 1, BARS_ALL = 2, NEVER = 3 };

struct realm_guard {
    struct realm_runtime *rt;
    _Atomic int is_on;
    uint64_t task;                    /* that is performed */
    struct realm_task_fault *fault;   /* its first one */
    int is_undeclared;
    struct realm_guard *outer;        /* of the body in which this one performs, if any */
    int is_blocked;                   /* the thread that waits blocks SIGSEGV elsewhere */
};

static pthread_mutex_t installing = PTHREAD_MUTEX_INITIALIZER;
static struct realm_guard *_Atomic guards[MOST_GUARDS];
static struct sigaction before;
static _Thread_local struct realm_guard *performing;

int realm_is_guard_asked_for(void) {
    const char *asked = getenv("REALM_GUARD");
    return asked && !strcmp(asked, "1");
}

static uint8_t *marks_of(const struct realm_datum *datum) { return datum->shadow + datum->bytes; }

static uint8_t *bars_of(const struct realm_datum *datum) { return marks_of(datum) + datum->tiles; }

uint32_t realm_guard_watch(struct realm_datum *datum) {
    datum->shadow = calloc(datum->bytes + 2 * (size_t)datum->tiles, 1);
    datum->told = 0;
    return datum->shadow ? REALM_DID : REALM_NO_MEMORY_LEFT;
}

/* The whole pages of a tile. An empty range where it fills none. */
struct pages { uint8_t *from, *to; };

static struct pages pages_of(const struct realm_datum *datum, uint32_t tile) {
    uintptr_t page = (uintptr_t)sysconf(_SC_PAGESIZE);
    uintptr_t from = (uintptr_t)datum->pointer + realm_tile_at(datum, tile), to = (uintptr_t)datum->pointer + realm_tile_at(datum, tile + 1);
    if (datum->mapped && tile + 1 == datum->tiles) to = (uintptr_t)datum->pointer + datum->mapped;
    from = (from + page - 1) / page * page;
    to = to / page * page;
    return (struct pages){(uint8_t *)from, (uint8_t *)(to > from ? to : from)};
}

/* Bars or opens the pages of a tile. */
static void set_bar(const struct realm_datum *datum, uint32_t tile, uint8_t bar) {
    static const int allowed[] = {PROT_READ | PROT_WRITE, PROT_READ, PROT_NONE};
    uint8_t *now = &bars_of(datum)[tile];
    struct pages pages = pages_of(datum, tile);
    if (*now == bar || *now == NEVER || pages.from == pages.to) return;
    *now = mprotect(pages.from, (size_t)(pages.to - pages.from), allowed[bar]) ? NEVER : bar;
    if (*now == NEVER) mprotect(pages.from, (size_t)(pages.to - pages.from), allowed[IS_OPEN]);
}

static int is_barred(const struct realm_datum *datum, uint32_t tile) {
    uint8_t bar = bars_of(datum)[tile];
    return bar == BARS_WRITING || bar == BARS_ALL;
}

/* What is told on standard error, put together without the C library's streams, since a handler tells it. */
struct line { char text[256]; size_t length; };

static void add(struct line *line, const char *words) {
    while (*words && line->length < sizeof line->text) line->text[line->length++] = *words++;
}

static void add_number(struct line *line, uint64_t number, unsigned base) {
    char digits[24];
    size_t at = sizeof digits;
    digits[--at] = 0;
    do digits[--at] = "0123456789abcdef"[number % base];
    while (number /= base);
    add(line, digits + at);
}

/* Tells an undeclared access, the first of the task to the datum. */
static void tell(struct realm_guard *guard, struct realm_datum *datum, uint32_t tile, size_t byte, int is_written, const char *did) {
    struct line line = {.length = 0};
    int is_declared = marks_of(datum)[tile] == DECLARED_TO_READ;
    if (datum->told == guard->task + 1) return;
    datum->told = guard->task + 1;
    if (!guard->is_undeclared)
        *guard->fault = (struct realm_task_fault){guard->task, 0, (uint32_t)is_declared, (uint32_t)is_written, datum->number, datum->pointer, byte};
    guard->is_undeclared = 1;
    add(&line, "realm guard: task ");
    add_number(&line, guard->task, 10);
    add(&line, did);
    add_number(&line, byte, 10);
    add(&line, " of datum ");
    add_number(&line, datum->number, 10);
    if (datum->ends) add(&line, ", in its tile "), add_number(&line, tile, 10);
    add(&line, ", at 0x");
    add_number(&line, (uintptr_t)datum->pointer + byte, 16);
    add(&line, is_declared ? ": it declared to read it\n" : ": it declared no access to it\n");
    if (write(STDERR_FILENO, line.text, line.length) < 0) return;
}

/* The datum of a runtime in whose bytes or pages an address lies, or null. */
static struct realm_datum *datum_at(const struct realm_data_table *data, const uint8_t *address) {
    uint32_t low = 0, high = data->live;
    while (low < high) {
        uint32_t middle = low + (high - low) / 2;
        if (data->places[data->order[middle]].pointer <= address) low = middle + 1;
        else high = middle;
    }
    if (!low) return 0;
    struct realm_datum *datum = &data->places[data->order[low - 1]];
    return (size_t)(address - datum->pointer) < realm_extent(datum) ? datum : 0;
}

static uint32_t tile_at(const struct realm_datum *datum, size_t byte) {
    uint32_t low = 0, high = datum->tiles - 1;
    while (low < high) {
        uint32_t middle = low + (high - low) / 2;
        if (realm_tile_at(datum, middle + 1) <= byte) low = middle + 1;
        else high = middle;
    }
    return low;
}

/* Whether the access that faulted writes, where that can be told. */
static int is_writing(const void *context, int is_barred_for_writing) {
#if defined(__x86_64__)
    (void)is_barred_for_writing;
    return (((const ucontext_t *)context)->uc_mcontext.gregs[REG_ERR] & 2) != 0;
#else
    (void)context;
    return is_barred_for_writing;
#endif
}

/* Opens the tile at an address where a guard bars it, and tells so where the thread runs a body of it. */
static int open_at(struct realm_guard *guard, uint8_t *address, const void *context, int is_told) {
    struct realm_datum *datum = guard->is_on ? datum_at(&guard->rt->data, address) : 0;
    if (!datum) return 0;
    size_t byte = (size_t)(address - datum->pointer);
    uint32_t tile = tile_at(datum, byte);
    if (!is_barred(datum, tile)) return 0;
    int is_written = is_writing(context, bars_of(datum)[tile] == BARS_WRITING);
    if (is_told) tell(guard, datum, tile, byte, is_written, is_written ? " wrote byte " : " read byte ");
    set_bar(datum, tile, IS_OPEN);
    return bars_of(datum)[tile] == IS_OPEN;
}

/* Whether a signal was sent by raise or kill: then no access made it. */
static int is_sent(const siginfo_t *info) { return info->si_code <= 0; }

/* Hands a signal on that is none of a guard's. */
static void hand_on(int number, siginfo_t *info, void *context) {
    int is_ignored = !(before.sa_flags & SA_SIGINFO) && before.sa_handler == SIG_IGN;
    if (before.sa_flags & SA_SIGINFO) {
        before.sa_sigaction(number, info, context);
    } else if (before.sa_handler != SIG_DFL && !is_ignored) {
        before.sa_handler(number);
    } else if (!is_ignored || !is_sent(info)) {
        /* (an access is tried again, and ends the program; what was sent is sent again) */
        signal(number, SIG_DFL);
        if (is_sent(info)) raise(number);
    }
}

/* Opens what a guard bars at the address of an access. Whether one does. */
static int open_for(const siginfo_t *info, const void *context) {
    for (struct realm_guard *it = performing; it; it = it->outer)
        if (open_at(it, info->si_addr, context, 1)) return 1;
    for (int i = 0; i < MOST_GUARDS; i++)
        if (guards[i] && open_at(guards[i], info->si_addr, context, 0)) return 1;
    return 0;
}

static void handle(int number, siginfo_t *info, void *context) {
    int kept = errno;
    if (is_sent(info) || !open_for(info, context)) hand_on(number, info, context);
    errno = kept;
}

/* Sees to it that the handler is there, also where the program has put another in its place. */
static void install(void) {
    struct sigaction now, wanted = {.sa_sigaction = handle, .sa_flags = SA_SIGINFO | SA_ONSTACK};
    sigemptyset(&wanted.sa_mask);
    pthread_mutex_lock(&installing);
    if (!sigaction(SIGSEGV, 0, &now) && !(now.sa_flags & SA_SIGINFO && now.sa_sigaction == handle)) {
        before = now;
        sigaction(SIGSEGV, &wanted, 0);
    }
    pthread_mutex_unlock(&installing);
}

uint32_t realm_guard_make(struct realm_runtime *rt) {
    struct realm_guard *guard = calloc(1, sizeof *guard);
    if (!guard) return REALM_NO_MEMORY_LEFT;
    guard->rt = rt;
    rt->guard = guard;
    pthread_mutex_lock(&installing);
    for (int i = 0; i < MOST_GUARDS; i++)
        if (!guards[i]) { guards[i] = guard; break; }
    pthread_mutex_unlock(&installing);
    return REALM_DID;
}

void realm_guard_free(struct realm_runtime *rt) {
    pthread_mutex_lock(&installing);
    for (int i = 0; i < MOST_GUARDS; i++)
        if (guards[i] == rt->guard) guards[i] = NULL;
    pthread_mutex_unlock(&installing);
    free(rt->guard);
}

static struct realm_datum *live_datum(struct realm_runtime *rt, uint32_t i) { return &rt->data.places[rt->data.order[i]]; }

/* Bars the pages of a datum, as far as no more ranges are barred than may be. Tiles whose pages adjoin are one range. */
static void bar_datum(const struct realm_datum *datum, uint32_t *ranges) {
    const uint8_t *end = 0;
    for (uint32_t k = 0; k < datum->tiles; k++) {
        struct pages pages = pages_of(datum, k);
        if (pages.from == pages.to) continue;
        *ranges += pages.from != end;
        end = pages.to;
        if (*ranges <= MOST_RANGES) set_bar(datum, k, BARS_ALL);
        else bars_of(datum)[k] = NEVER;
    }
}

/* Blocks SIGSEGV in this thread, or not. Whether it did before. */
static int block(int is_blocked) {
    sigset_t set, was;
    sigemptyset(&set);
    sigaddset(&set, SIGSEGV);
    pthread_sigmask(is_blocked ? SIG_BLOCK : SIG_UNBLOCK, &set, &was);
    return sigismember(&was, SIGSEGV);
}

void realm_guard_begin(struct realm_runtime *rt) {
    uint32_t ranges = 0;
    install();
    rt->guard->is_blocked = block(0);
    for (uint32_t i = 0; i < rt->data.live; i++) {
        struct realm_datum *datum = live_datum(rt, i);
        memcpy(datum->shadow, datum->pointer, datum->bytes);
        bar_datum(datum, &ranges);
    }
    rt->guard->is_on = 1;
}

void realm_guard_end(struct realm_runtime *rt) {
    rt->guard->is_on = 0;
    for (uint32_t i = 0; i < rt->data.live; i++) {
        struct realm_datum *datum = live_datum(rt, i);
        for (uint32_t k = 0; k < datum->tiles; k++) set_bar(datum, k, IS_OPEN);
    }
    block(rt->guard->is_blocked);
}

/* Opens what a task declares, as far as it does. */
static void open_uses(struct realm_runtime *rt, const struct realm_record *record) {
    for (uint32_t k = 0; k < record->count; k++) {
        const struct realm_datum *datum = &rt->data.places[record->places[k]];
        const struct realm_piece *piece = &record->pieces[k];
        for (uint32_t p = 0; p < piece->count; p++) {
            uint32_t tile = piece->first - datum->first + p;
            marks_of(datum)[tile] = piece->writes ? DECLARED_TO_WRITE : DECLARED_TO_READ;
            set_bar(datum, tile, piece->writes ? IS_OPEN : BARS_WRITING);
        }
    }
}

/* Compares bytes of a tile that the task did not declare to write with what they were. */
static void compare(struct realm_guard *guard, struct realm_datum *datum, uint32_t tile, size_t from, size_t to) {
    uint8_t *now = datum->pointer + from, *was = datum->shadow + from;
    if (from >= to || !memcmp(now, was, to - from)) return;
    size_t at = 0;
    while (now[at] == was[at]) at++;
    tell(guard, datum, tile, from + at, 1, " changed byte ");
    memcpy(was, now, to - from);
}

/* Looks at a tile behind a body, and bars it again. Pages that were barred need no look, those that the handler opened had one. */
static void look_at(struct realm_guard *guard, struct realm_datum *datum, uint32_t tile) {
    size_t from = realm_tile_at(datum, tile), to = realm_tile_at(datum, tile + 1), inner = to, outer = to;
    struct pages pages = pages_of(datum, tile);
    if (pages.from < pages.to && bars_of(datum)[tile] != NEVER) {
        inner = (size_t)(pages.from - datum->pointer);
        outer = (size_t)(pages.to - datum->pointer);
    }
    if (outer > to) outer = to;
    if (marks_of(datum)[tile] == DECLARED_TO_WRITE) {
        memcpy(datum->shadow + from, datum->pointer + from, to - from);
    } else {
        compare(guard, datum, tile, from, inner);
        compare(guard, datum, tile, outer, to);
    }
    marks_of(datum)[tile] = NOT_DECLARED;
    set_bar(datum, tile, BARS_ALL);
}

uint32_t realm_guard_perform(struct realm_runtime *rt, uint32_t task, struct realm_task_fault *fault, int *is_undeclared) {
    struct realm_guard *guard = rt->guard;
    const struct realm_record *record = &rt->records[task];
    guard->task = rt->base + task;
    guard->fault = fault;
    guard->is_undeclared = 0;
    guard->outer = performing;
    open_uses(rt, record);
    performing = guard;
    uint32_t answer = record->body(record->argument);
    performing = guard->outer;
    for (uint32_t i = 0; i < rt->data.live; i++) {
        struct realm_datum *datum = live_datum(rt, i);
        for (uint32_t k = 0; k < datum->tiles; k++) look_at(guard, datum, k);
    }
    *is_undeclared = guard->is_undeclared;
    return answer;
}
