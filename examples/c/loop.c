/* Threads of the program's own run a graph: a lock for the run, and each line performed outside of it, where run.c leaves all that
   to one call. A program needs this where it does something of its own beside each line. What is written is the report, which no
   schedule changes. Usage: loop THREADS FILE; the exit status is that of the program. */
#include "realm.h"
#include "realm_files.h"
#include <pthread.h>

enum { MOST_LINES = 65536, MOST_THREADS = 8 };

/* All but the lock itself is used under the lock. */
static pthread_mutex_t lock = PTHREAD_MUTEX_INITIALIZER;
static pthread_cond_t changed = PTHREAD_COND_INITIALIZER;
static struct realm_run run;
static uint32_t ready[MOST_LINES], later[MOST_LINES];   /* lines to try now, and after the next that ends */
static uint32_t ready_count, later_count, out_count, issued_count;
static int failed;

/* Each line is in one of the two lists at most once: where it is issued, woken, or was busy. */
static void try_later(uint32_t line) { later[later_count++] = line; }
static void try_now(uint32_t line) { ready[ready_count++] = line; }

/* A line to try. 0 where there is none now. */
static int next_line(uint32_t *line) {
    if (ready_count) { *line = ready[--ready_count]; return 1; }
    if (realm_run_issue(&run, line) != REALM_RUN_DONE) return 0;
    issued_count++;
    return 1;
}

/* Takes a line. 0 where none can be taken now. */
static int take(struct realm_work *work) {
    uint32_t line, other;
    while (next_line(&line)) {
        uint32_t status = realm_run_take(&run, line, work, &other);
        if (status == REALM_RUN_DONE) return 1;
        /* one that waits for an issued line is woken by its end, and one that waits for another is tried again later */
        int is_woken = status == REALM_RUN_NOT_YET && other < issued_count;
        if (status <= REALM_RUN_BUSY_COLUMN && !is_woken) try_later(line);
        if (status == REALM_RUN_NO_MEMORY) { failed = 1; return 0; }
    }
    return 0;
}

static void put_back(struct realm_work *work) {
    uint32_t line;
    realm_run_put_back(&run, work);
    while (later_count) try_now(later[--later_count]);
    while (realm_run_woken(&run, &line) == REALM_RUN_DONE) try_now(line);
}

static void *work(void *none) {
    struct realm_work work = {0};
    pthread_mutex_lock(&lock);
    for (;;) {
        if (!failed && take(&work)) {
            out_count++;
            pthread_mutex_unlock(&lock);
            realm_work_perform(&work);
            pthread_mutex_lock(&lock);
            put_back(&work);
            out_count--;
            pthread_cond_broadcast(&changed);
        } else if (out_count && !failed) {
            pthread_cond_wait(&changed, &lock);
        } else {
            break;
        }
    }
    pthread_mutex_unlock(&lock);
    return none;
}

/* Writes the report: the call tells how much room it needs. */
static uint32_t put_report(void) {
    uint8_t none, *out = &none;
    uint64_t room = 0, written = 0;
    uint32_t status = realm_run_report(&run, out, room, &written);
    if (status == REALM_RUN_NO_ROOM) {
        room = written;
        out = malloc(room);
        status = out ? realm_run_report(&run, out, room, &written) : (uint32_t)REALM_RUN_NO_MEMORY;
    }
    if (status == REALM_RUN_DONE) fwrite(out, 1, written, stdout);
    if (out != &none) free(out);
    return status;
}

int main(int argc, char **argv) {
    if (argc != 3) return REALM_USAGE;
    int threads = atoi(argv[1]);
    struct realm_text text = read_file(argv[2]);
    struct realm_verdict verdict;
    pthread_t started[MOST_THREADS];
    uint32_t status = realm_run_new(text.bytes, text.length, 0, &run, &verdict);
    free(text.bytes);
    if (status != REALM_DONE) return (int)status;
    int count = 0;
    while (count < threads && count < MOST_THREADS && !pthread_create(&started[count], 0, work, 0)) count++;
    while (count) pthread_join(started[--count], 0);
    status = put_report();
    realm_run_free(&run);
    return (int)status;
}
