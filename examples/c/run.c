/* A graph is run by threads, and its report is written; where it is refused, why. Usage: run THREADS FILE; the exit status is that
   of the program. */
#include "realm.h"
#include "realm_files.h"

/* Writes one line on a status of a run to the standard error, and gives the status. */
static uint32_t told(uint32_t status) {
    uint8_t line[256];
    uint64_t length;
    if (status && realm_run_message(status, line, sizeof line, &length) == REALM_DONE) fprintf(stderr, "%.*s\n", (int)length, (char *)line);
    return status;
}

/* Writes a text that a call gives: it is called with more room where it asks for it. */
static uint32_t put(uint32_t (*call)(void *, uint8_t *, size_t, uint64_t *), void *of) {
    size_t room = 4096;
    uint64_t written = 0;
    uint8_t *out = malloc(room);
    uint32_t status = out ? call(of, out, room, &written) : (uint32_t)REALM_NO_MEMORY;
    if (status == REALM_NO_ROOM) {
        free(out);
        room = written;
        out = malloc(room);
        status = out ? call(of, out, room, &written) : (uint32_t)REALM_NO_MEMORY;
    }
    if (status == REALM_DONE) fwrite(out, 1, written, stdout);
    free(out);
    return status;
}

static uint32_t report(void *run, uint8_t *out, size_t room, uint64_t *written) { return realm_run_report(run, out, room, written); }

static uint32_t explanation(void *of, uint8_t *out, size_t room, uint64_t *written) {
    struct realm_text *text = of;
    return realm_explain(text->bytes, text->length, out, room, written);
}

int main(int argc, char **argv) {
    if (argc != 3) return REALM_USAGE;
    struct realm_text text = read_file(argv[2]);
    struct realm_run run = {0};
    struct realm_verdict verdict;
    uint32_t status = realm_run_new(text.bytes, text.length, 0, &run, &verdict);
    if (status == REALM_DONE) {
        status = told(realm_run_all(&run, (uint32_t)atoi(argv[1])));
        if (status == REALM_RUN_DONE) status = told(put(report, &run));
        realm_run_free(&run);
    } else {
        put(explanation, &text);
    }
    free(text.bytes);
    return (int)status;
}
