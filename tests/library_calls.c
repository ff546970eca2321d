/* Each call of the libraries for C on a small text or event, and how it answers. Usage: library_calls; the status is 0 where all answer so. */
#include "realm.h"
#include "realm_events.h"
#include <stdio.h>
#include <string.h>

static int wrong;

/* Notes a number that is not the wanted one, with the line on which it stands. */
static void wants(int line, uint64_t found, uint64_t wanted) {
    if (found == wanted) return;
    printf("library_calls.c:%d: %llu, and not %llu\n", line, (unsigned long long)found, (unsigned long long)wanted);
    wrong = 1;
}

#define WANTS(found, wanted) wants(__LINE__, (found), (wanted))

static void wants_text(int line, const uint8_t *out, uint64_t written, const char *wanted) {
    wants(line, written, strlen(wanted));
    if (written == strlen(wanted)) wants(line, memcmp(out, wanted, written) != 0, 0);
}

#define WANTS_TEXT(wanted) wants_text(__LINE__, out, written, (wanted))
#define SAYS(call, wanted) (WANTS((call), REALM_DONE), WANTS_TEXT(wanted))
#define TEXT(text) (const uint8_t *)(text), strlen(text)

static const char plainest[] = "realm 1\nend\n";
static const char one_fill[] = "realm 1\nspace s 0..0\ninst a s x\nf = fill a.x s 7\nend\n";

static void verdicts_of_the_plainest_graph(void) {
    struct realm_verdict verdict;
    WANTS(realm_check(TEXT(plainest), &verdict), REALM_DONE);
    WANTS(verdict.need, 1);
    WANTS(realm_audit(TEXT("realm 1\nend\nrealm-trace 1\ndone\n"), &verdict), REALM_DONE);
    WANTS(realm_audit(TEXT(plainest), &verdict), REALM_UNREAD);
    WANTS(verdict.line, 3);
}

static void texts_of_small_graphs(void) {
    uint8_t out[64];
    uint64_t written = 0;
    WANTS(realm_eval(TEXT(plainest), out, sizeof out, &written), REALM_DONE);
    WANTS_TEXT("realm-report 1\ndone\n");
    WANTS(realm_upgrade(TEXT(plainest), out, sizeof out, &written), REALM_DONE);
    WANTS_TEXT("realm 2\nend\n");
    WANTS(realm_upgrade_to(TEXT(plainest), 3, out, sizeof out, &written), REALM_DONE);
    WANTS_TEXT("realm 3\nend\n");
    WANTS(realm_upgrade_to(TEXT(plainest), 2, out, sizeof out, &written), REALM_USAGE);
    WANTS(realm_plan(TEXT(plainest), 1, out, sizeof out, &written), REALM_DONE);
    WANTS_TEXT("timeline 1\ncritical 0\nlength 0\ndone\n");
    WANTS(realm_make(1, 0, out, sizeof out, &written), REALM_USAGE);
    WANTS(realm_make(1, 1, out, sizeof out, &written), REALM_NO_ROOM);
    WANTS(realm_word(REALM_RULE_WORD, REALM_RACE, out, sizeof out, &written), REALM_DONE);
    WANTS_TEXT("race");
}

static void a_line_of_a_run(void) {
    struct realm_run run = {0};
    struct realm_work work = {0};
    struct realm_verdict verdict;
    uint32_t line = 9, other = 9;
    WANTS(realm_run_new(TEXT(one_fill), 0, &run, &verdict), REALM_DONE);
    WANTS(realm_run_issue(&run, &line), REALM_RUN_DONE);
    WANTS(line, 0);
    WANTS(realm_run_take(&run, 0, &work, &other), REALM_RUN_DONE);
    WANTS(realm_work_perform(&work), REALM_RUN_DONE);
    WANTS(realm_run_put_back(&run, &work), REALM_RUN_DONE);
    WANTS(realm_run_issue(&run, &line), REALM_RUN_NONE);
    WANTS(realm_run_woken(&run, &line), REALM_RUN_NONE);
    realm_run_free(&run);
}

/* Two operations that only read a column have it together; one that changes another part of it has it once both are back. */
static void readers_of_a_column(void) {
    static const char text[] = "realm 1\nspace s 0..0\nspace t 1..1\nspace w 0..1\ninst a w x,y,z\n"
                               "f = copy a.x a.y s\ng = copy a.x a.z s\nh = fill a.x t 7\nend\n";
    static const char report[] = "realm-report 1\nop f done triggered\nop g done triggered\nop h done triggered\n"
                                 "cells a.x 0..1 0 7\ncells a.y 0..1 0 0\ncells a.z 0..1 0 0\ndone\n";
    struct realm_run run = {0};
    struct realm_work works[3] = {{0}};
    struct realm_verdict verdict;
    uint8_t out[256];
    uint64_t written;
    uint32_t line, other = 9;
    WANTS(realm_run_new(TEXT(text), 0, &run, &verdict), REALM_DONE);
    for (uint32_t i = 0; i < 3; i++) WANTS(realm_run_issue(&run, &line), REALM_RUN_DONE);
    for (uint32_t i = 0; i < 2; i++) WANTS(realm_run_take(&run, i, &works[i], &other), REALM_RUN_DONE);
    for (uint32_t i = 0; i < 2; i++) {
        WANTS(realm_run_take(&run, 2, &works[2], &other), REALM_RUN_BUSY_COLUMN);
        WANTS(other, 0);
        WANTS(realm_work_perform(&works[i]), REALM_RUN_DONE);
        WANTS(realm_run_put_back(&run, &works[i]), REALM_RUN_DONE);
    }
    WANTS(realm_run_take(&run, 2, &works[2], &other), REALM_RUN_DONE);
    WANTS(realm_work_perform(&works[2]), REALM_RUN_DONE);
    WANTS(realm_run_put_back(&run, &works[2]), REALM_RUN_DONE);
    WANTS(realm_run_report(&run, out, sizeof out, &written), REALM_RUN_DONE);
    WANTS_TEXT(report);
    WANTS(realm_run_free(&run), REALM_RUN_DONE);
}

static void the_report_of_a_run(void) {
    struct realm_run run = {0};
    struct realm_verdict verdict;
    uint8_t out[57];
    uint64_t written = 0;
    WANTS(realm_run_new(TEXT(one_fill), 8193, &run, &verdict), REALM_USAGE);
    WANTS(realm_run_new(TEXT(one_fill), 0, &run, &verdict), REALM_DONE);
    WANTS(realm_run_report(&run, out, sizeof out, &written), REALM_RUN_DONE);
    WANTS_TEXT("realm-report 1\nop f done triggered\ncells a.x 0..0 7\ndone\n");
    realm_run_free(&run);
}

static void a_run_by_threads(void) {
    struct realm_run run = {0};
    struct realm_verdict verdict;
    struct realm_run_lines lines;
    uint8_t out[57];
    uint64_t written = 0;
    WANTS(realm_run_new(TEXT(one_fill), 0, &run, &verdict), REALM_DONE);
    WANTS(realm_run_state(&run, &lines), REALM_RUN_DONE);
    WANTS(lines.unissued, 1);
    WANTS(lines.left, 1);
    WANTS(realm_run_all(&run, 9), REALM_MISUSE_RANGE);
    WANTS(realm_run_all(&run, 2), REALM_RUN_DONE);
    WANTS(realm_run_state(&run, &lines), REALM_RUN_DONE);
    WANTS(lines.ended, 1);
    WANTS(lines.left, 0);
    WANTS(realm_run_report(&run, out, sizeof out, &written), REALM_RUN_DONE);
    WANTS_TEXT("realm-report 1\nop f done triggered\ncells a.x 0..0 7\ndone\n");
    WANTS(realm_run_all(&run, 2), REALM_MISUSE_REPORTED);
    WANTS(realm_run_free(&run), REALM_RUN_DONE);
}

/* A line that waits for what never comes is left, and nothing was forgotten. */
static void waits_for_good(void) {
    static const char text[] = "realm 1\nspace s 0..0\ninst a s x\nu = user\nf = fill a.x s 7 on u\nend\n";
    static const char report[] = "realm-report 1\nop u waiting pending\nop f waiting pending\ncells a.x 0..0 0\ndone\n";
    for (uint32_t threads = 0; threads <= 8; threads++) {
        struct realm_run run = {0};
        struct realm_verdict verdict;
        struct realm_run_lines lines;
        uint8_t out[256];
        uint64_t written;
        WANTS(realm_run_new(TEXT(text), 0, &run, &verdict), REALM_DONE);
        WANTS(realm_run_all(&run, threads), REALM_RUN_DONE);
        WANTS(realm_run_state(&run, &lines), REALM_RUN_DONE);
        WANTS(lines.issued, 2);
        WANTS(realm_run_report(&run, out, sizeof out, &written), REALM_RUN_DONE);
        WANTS(written == sizeof report - 1 && !memcmp(out, report, written), 1);
        WANTS(realm_run_free(&run), REALM_RUN_DONE);
    }
}

static void misuse_of_runs(void) {
    struct realm_run run = {0}, other = {0}, none = {0}, copy;
    struct realm_work work = {0}, taken;
    struct realm_verdict verdict;
    uint8_t out[57];
    uint64_t written = 9;
    uint32_t line = 9;
    WANTS(realm_run_new(TEXT(one_fill), 0, &run, &verdict), REALM_DONE);
    WANTS(realm_run_new(TEXT(one_fill), 0, &other, &verdict), REALM_DONE);
    WANTS(realm_run_new(TEXT(one_fill), 0, &run, &verdict), REALM_MISUSE_FILLED);
    WANTS(realm_run_issue(&none, &line), REALM_MISUSE_EMPTY);
    WANTS(realm_run_issue(&run, &line), REALM_RUN_DONE);
    WANTS(realm_run_take(&run, 1, &work, &line), REALM_MISUSE_RANGE);
    WANTS(realm_run_take(&run, 0, &work, &line), REALM_RUN_DONE);
    WANTS(realm_run_put_back(&run, &work), REALM_MISUSE_UNPERFORMED);
    WANTS(realm_run_report(&run, out, sizeof out, &written), REALM_MISUSE_WORK_OUT);
    WANTS(written, 0);
    WANTS(realm_run_all(&run, 1), REALM_MISUSE_WORK_OUT);
    WANTS(realm_work_perform(&work), REALM_RUN_DONE);
    WANTS(realm_work_perform(&work), REALM_MISUSE_PERFORMED);
    WANTS(realm_run_put_back(&other, &work), REALM_MISUSE_OTHER_RUN);
    taken.at = run.at;
    WANTS(realm_work_perform(&taken), REALM_MISUSE_WRONG);
    taken = work;
    WANTS(realm_run_put_back(&run, &work), REALM_RUN_DONE);
    WANTS(work.at, 0);
    WANTS(realm_run_put_back(&run, &taken), REALM_MISUSE_USED_UP);
    copy = run;
    WANTS(realm_run_free(&run), REALM_RUN_DONE);
    WANTS(realm_run_free(&run), REALM_MISUSE_EMPTY);
    WANTS(realm_run_free(&copy), REALM_MISUSE_USED_UP);
    WANTS(realm_run_new(TEXT(one_fill), 0, &run, &verdict), REALM_DONE);
    WANTS(realm_run_issue(&copy, &line), REALM_MISUSE_USED_UP);
    WANTS(realm_run_free(&run), REALM_RUN_DONE);
    WANTS(realm_run_free(&other), REALM_RUN_DONE);
}

static void words_on_answers(void) {
    uint8_t out[512];
    uint64_t written = 0;
    WANTS(realm_explain(TEXT(plainest), out, sizeof out, &written), REALM_DONE);
    WANTS(written > 0, 1);
    WANTS(realm_explain(TEXT(plainest), out, 1, &written), REALM_NO_ROOM);
    WANTS(written > 1, 1);
    SAYS(realm_message(REALM_UNFIT, out, sizeof out, &written), "the graph breaks a rule");
    SAYS(realm_message(REALM_MISUSE_EMPTY, out, sizeof out, &written), "the handle is empty");
    SAYS(realm_message(1, out, sizeof out, &written), "no answer has this number");
    SAYS(realm_run_message(REALM_RUN_NEVER, out, sizeof out, &written), "the operation never comes");
    SAYS(realm_run_message(REALM_MISUSE_FORGOTTEN, out, sizeof out, &written), "the loop has left an operation that comes");
    SAYS(realm_run_message(REALM_MISUSE_NO_BODY, out, sizeof out, &written), "a call of the graph has a word that is not in the table");
    SAYS(realm_run_message(REALM_MISUSE_CALLS_LEFT, out, sizeof out, &written), "a call is left whose body was not run");
    SAYS(realm_run_message(99, out, sizeof out, &written), "no answer has this number");
    WANTS(realm_message(REALM_UNFIT, out, 3, &written), REALM_NO_ROOM);
    WANTS(written, 23);
    WANTS(strcmp(realm_version(), REALM_VERSION), 0);
}

static void misuse_of_events(void) {
    struct realm_held owner = REALM_EMPTY, other = REALM_EMPTY, place = REALM_EMPTY, pending = REALM_EMPTY, none = REALM_EMPTY;
    struct realm_handle handle, beyond;
    WANTS(realm_events_new(1, 0, 0, &owner), REALM_EVENTS_DONE);
    WANTS(realm_events_new(1, 0, 0, &other), REALM_EVENTS_DONE);
    WANTS(realm_events_new(1, 0, 0, &owner), REALM_MISUSE_FILLED);
    WANTS(realm_events_split(&owner, &place), REALM_EVENTS_DONE);
    WANTS(realm_events_create(&owner, &pending, &handle), REALM_EVENTS_DONE);
    beyond = handle;
    beyond.gen = 1;
    WANTS(realm_events_look(&place, beyond), REALM_MISUSE_RANGE);
    WANTS(realm_events_look(&other, handle), REALM_MISUSE_OTHER_RUN);
    WANTS(realm_events_look(&none, handle), REALM_MISUSE_EMPTY);
    WANTS(realm_events_look(&pending, handle), REALM_MISUSE_WRONG);
    WANTS(realm_events_look(&place, handle), REALM_PENDING);
    WANTS(realm_events_join(&place, &owner), REALM_MISUSE_WRONG);
    WANTS(realm_events_join(&other, &place), REALM_MISUSE_OTHER_RUN);
    WANTS(realm_events_end(&pending, 2), REALM_MISUSE_RANGE);
    WANTS(realm_events_end(&pending, REALM_OK), REALM_EVENTS_DONE);
    WANTS(realm_events_end(&pending, REALM_OK), REALM_MISUSE_WRONG);
    WANTS(realm_events_free(&pending), REALM_EVENTS_DONE);
    WANTS(realm_events_free(&pending), REALM_MISUSE_EMPTY);
    WANTS(realm_events_free(&place), REALM_EVENTS_DONE);
    WANTS(realm_events_free(&owner), REALM_EVENTS_DONE);
    WANTS(realm_events_free(&other), REALM_EVENTS_DONE);
}

static void an_event_that_ends_with_poison(void) {
    struct realm_held owner = REALM_EMPTY, pending = REALM_EMPTY, receipt = REALM_EMPTY;
    struct realm_handle handle, told = {9, 9, 9};
    WANTS(realm_events_new(1, 1, 9, &owner), REALM_EVENTS_DONE);
    WANTS(realm_events_create(&owner, &pending, &handle), REALM_EVENTS_DONE);
    WANTS(handle.slot, 0);
    WANTS(handle.gen, 0);
    WANTS(realm_events_end(&pending, REALM_POISON), REALM_EVENTS_DONE);
    WANTS(realm_events_look(&owner, handle), REALM_POISONED);
    WANTS(realm_events_receipt(&pending, &receipt), REALM_EVENTS_DONE);
    WANTS(realm_events_learn(&owner, &receipt, &told), REALM_POISON);
    WANTS(told.slot, 0);
    WANTS(told.gen, 0);
    realm_events_free(&pending);
    WANTS(realm_events_close(&owner), REALM_EVENTS_DONE);
    realm_events_free(&owner);
}

static void a_waiter_on_an_event_that_is_left(void) {
    struct realm_held owner = REALM_EMPTY, place = REALM_EMPTY, pending = REALM_EMPTY, waiter = REALM_EMPTY;
    struct realm_handle handle, found = {9, 9, 9};
    uint32_t number = 9;
    WANTS(realm_events_new(0, 1, 9, &owner), REALM_EVENTS_REFUSED);
    WANTS(realm_events_new(1, 1, 9, &owner), REALM_EVENTS_DONE);
    WANTS(realm_events_waiter(&owner, &waiter, &number), REALM_EVENTS_DONE);
    WANTS(number, 0);
    WANTS(realm_events_create(&owner, &pending, &handle), REALM_EVENTS_DONE);
    WANTS(realm_events_watch(&owner, handle, &waiter), REALM_PLACED);
    WANTS(realm_events_split(&owner, &place), REALM_EVENTS_DONE);
    WANTS(realm_events_join(&owner, &place), REALM_EVENTS_DONE);
    WANTS(realm_events_close(&owner), REALM_EVENTS_REFUSED);
    WANTS(realm_events_leave(&pending), REALM_EVENTS_DONE);
    realm_events_free(&pending);
    WANTS(realm_events_close(&owner), REALM_EVENTS_DONE);
    WANTS(realm_events_closed_look(&owner, (struct realm_handle)REALM_NO_EVENT), REALM_TRIGGERED);
    WANTS(realm_events_closed_place(&owner, 0, &found), REALM_EVENTS_DONE);
    WANTS(found.slot, handle.slot);
    WANTS(found.gen, handle.gen);
    realm_events_free(&owner);
}

static void a_waiter_that_is_caught(void) {
    struct realm_held owner = REALM_EMPTY, pending = REALM_EMPTY, waiter = REALM_EMPTY, caught = REALM_EMPTY;
    struct realm_handle handle;
    uint32_t number = 9, given = 9;
    WANTS(realm_events_new(1, 1, 0, &owner), REALM_EVENTS_DONE);
    WANTS(realm_events_waiter(&owner, &waiter, &number), REALM_EVENTS_DONE);
    WANTS(realm_events_create(&owner, &pending, &handle), REALM_EVENTS_DONE);
    WANTS(realm_events_watch(&owner, handle, &waiter), REALM_PLACED);
    WANTS(realm_events_end(&pending, REALM_OK), REALM_EVENTS_DONE);
    WANTS(realm_events_next(&pending, &caught, &given), REALM_EVENTS_DONE);
    WANTS(given, number);
    realm_events_free(&caught);
    WANTS(realm_events_next(&pending, &caught, &given), REALM_EVENTS_NONE);
    WANTS(realm_events_join(&owner, &pending), REALM_EVENTS_DONE);
    WANTS(realm_events_create(&owner, &pending, &handle), REALM_EVENTS_FULL);
    realm_events_free(&owner);
}

int main(void) {
    verdicts_of_the_plainest_graph();
    texts_of_small_graphs();
    a_line_of_a_run();
    readers_of_a_column();
    the_report_of_a_run();
    a_run_by_threads();
    waits_for_good();
    misuse_of_runs();
    words_on_answers();
    misuse_of_events();
    an_event_that_ends_with_poison();
    a_waiter_on_an_event_that_is_left();
    a_waiter_that_is_caught();
    if (!wrong) puts("library_calls: all calls answer as they should");
    return wrong;
}
