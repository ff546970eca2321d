/* What the program's eval, upgrade, timeline and make --text write, and what realm-explain does, by the library.
   Usage: texts eval FILE | upgrade FILE | explain FILE | plan PROCESSORS FILE | make SEED SIZE | audit FILE */
#include "realm.h"
#include "realm_files.h"
#include <string.h>

static struct realm_text text = {0, 0};
static unsigned long long one, two;

/* A number of 32 bits: one that is larger is as much beyond each range as the largest. */
static uint32_t number(unsigned long long n) { return n < UINT32_MAX ? (uint32_t)n : UINT32_MAX; }

static uint32_t call(const char *action, uint8_t *out, size_t room, uint64_t *written) {
    if (!strcmp(action, "eval")) return realm_eval(text.bytes, text.length, out, room, written);
    if (!strcmp(action, "upgrade")) return realm_upgrade(text.bytes, text.length, out, room, written);
    if (!strcmp(action, "explain")) return realm_explain(text.bytes, text.length, out, room, written);
    if (!strcmp(action, "plan")) return realm_plan(text.bytes, text.length, number(one), out, room, written);
    return realm_make(one, number(two), out, room, written);
}

static int audit(void) {
    struct realm_verdict verdict;
    uint32_t status = realm_audit(text.bytes, text.length, &verdict);
    if (status == REALM_DONE) printf("lawful");
    if (status == REALM_UNLAWFUL) {
        /* the program names the operations; the library tells their numbers, and the place, which the program counts from 1 */
        printf("unlawful");
        put_word(REALM_FAULT_WORD, verdict.fault);
        if (verdict.fault != REALM_MISSING) printf(" %u", verdict.place + 1);
        if (verdict.fault >= REALM_SOURCE) printf(" %u", verdict.first);
    }
    if (status == REALM_UNREAD) {
        printf("refused line %llu", (unsigned long long)verdict.line);
        put_word(REALM_WHY_WORD, verdict.why);
    }
    putchar('\n');
    free(text.bytes);
    return (int)status;
}

int main(int argc, char **argv) {
    if (argc < 3) return REALM_USAGE;
    int is_make = !strcmp(argv[1], "make");
    one = strtoull(argv[2], 0, 10);
    two = is_make && argc > 3 ? strtoull(argv[3], 0, 10) : 0;
    if (!is_make) text = read_file(argv[argc - 1]);
    if (!strcmp(argv[1], "audit")) return audit();
    /* too little room at first: the call then says how much it would need */
    size_t room = 64;
    uint64_t written = 0;
    uint8_t *out = malloc(room);
    uint32_t status = out ? call(argv[1], out, room, &written) : (uint32_t)REALM_NO_MEMORY;
    if (status == REALM_NO_ROOM) {
        room = written;
        free(out);
        out = malloc(room);
        status = out ? call(argv[1], out, room, &written) : (uint32_t)REALM_NO_MEMORY;
    }
    if (out) fwrite(out, 1, written, stdout);
    free(out);
    free(text.bytes);
    return (int)status;
}
