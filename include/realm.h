/* Graphs and traces by their texts, and runs of graphs by threads of the program's. What each call gives is a proved clause of the
   crates realm_c and realm_runs_c, but where this page says that it is tested. Link librealm.a or librealm.so.

   Runs and works are held by handles that are numbers. Whatever calls are made on them, in whatever order and by whatever
   threads, each does what stands beside it or answers a number of enum realm_misuse, with which nothing is changed and nothing
   lost. That is tested, not proved. What nothing checks, and the program must keep:
   - pointers are not null, even where a length is 0; text may be read for length bytes, out written for room bytes; text, out,
     written, verdict and what else a call is given are apart, and nobody else reads or writes them during the call;
   - a `struct realm_run` or `struct realm_work` is of zero bytes at first, or as a call left it; a verdict may hold anything;
   - malloc, realloc and free are those of one allocator, and its blocks are aligned to 16 bytes. No call is made from a signal
     handler, nor in a child that a process with threads has forked.
   Calls on texts have nothing in common, so threads may make them at one time. Each is tried in a program with 64 KiB of
   stack, which is not proved to be enough. */
#ifndef REALM_H
#define REALM_H
#include "realm_misuse.h"
#include <stddef.h>
#include <stdint.h>
#ifdef __cplusplus
extern "C" {
#endif

/* The answers. The numbers are those of the program's exit status, but NO_ROOM, which the program has not.
     DONE       what was asked for was done
     USAGE      a number is not within its range
     UNREAD     the text is no graph's, or for realm_audit not followed by a trace's
     UNFIT      the graph breaks a rule
     NO_ROOM    out is too short: it is filled with the first part, and written is the length that it would need
     NO_MEMORY  memory was refused
     SLOTS      a run is to have fewer event slots than its graph needs, or its graph needs more than 8,192
     TOO_LONG   the text has more than 16,777,216 bytes where its first line is `realm 3`, else more than 1,048,576; for realm_audit
                more than twice as many
     UNLAWFUL   the trace is not lawful
   After an answer but DONE and NO_ROOM out is as it was and written is 0. */
enum realm_status {
    REALM_DONE = 0, REALM_USAGE = 2, REALM_UNREAD = 3, REALM_UNFIT = 4, REALM_NO_ROOM = 6, REALM_NO_MEMORY = 7,
    REALM_SLOTS = 8, REALM_TOO_LONG = 9, REALM_UNLAWFUL = 10
};

/* The rules, and the faults of a trace. */
enum realm_rule {
    REALM_CYCLE = 1, REALM_UNRELEASED = 2, REALM_SECTION = 3, REALM_DESCENDS = 4, REALM_RELEASE = 5, REALM_RACE = 6
};
enum realm_fault { REALM_REPEAT = 1, REALM_WAITS = 2, REALM_SOURCE = 3, REALM_OVERLAP = 4, REALM_MISSING = 5 };

/* What is told of a text, by the answer. What the answer does not speak of is 0. Lines of the graph are its operations,
   counted from 0, and places of a trace are counted from 0: so whether a 0 tells of one is told by the rule or the fault. */
struct realm_verdict {
    uint32_t need;     /* DONE of realm_check and SLOTS: how many event slots are enough for any run, at most 65,536 */
    uint32_t rule;     /* UNFIT: the first rule that is broken */
    uint32_t first;    /* UNFIT: the least line at which it is. UNLAWFUL: for SOURCE, OVERLAP and MISSING the other line */
    uint32_t second;   /* UNFIT: for SECTION, DESCENDS and RACE the second line; the other rules name one */
    uint64_t line;     /* UNREAD: the first refused line of the text, from 1 */
    uint32_t why;      /* UNREAD: the number of its first reason, from 1 */
    uint32_t fault;    /* UNLAWFUL: the first fault of the trace */
    uint32_t place;    /* UNLAWFUL: its place in the trace; MISSING has none */
};

/* Is the text that of a graph which keeps the six rules, among them that it is free of races and of cycles?
   DONE exactly where it is, want of memory aside; UNREAD, UNFIT, NO_MEMORY, TOO_LONG. */
uint32_t realm_check(const uint8_t *text, size_t length, struct realm_verdict *verdict);

/* The report of the one-thread evaluation, which each run of the graph has whatever its threads do.
   DONE or NO_ROOM exactly where the graph is accepted, want of memory aside; UNREAD, UNFIT, NO_MEMORY, TOO_LONG. */
uint32_t realm_eval(const uint8_t *text, size_t length, uint8_t *out, size_t room, uint64_t *written);

/* The text of a generated graph of size 1 to 8,192, the same for the same numbers. DONE, USAGE, NO_ROOM, NO_MEMORY. */
uint32_t realm_make(uint64_t seed, uint32_t size, uint8_t *out, size_t room, uint64_t *written);

/* The text of the graph in format 2, or in format 3 where it has that, whether or not it is accepted. DONE, UNREAD, NO_ROOM, NO_MEMORY, TOO_LONG. */
uint32_t realm_upgrade(const uint8_t *text, size_t length, uint8_t *out, size_t room, uint64_t *written);

/* The same in a format that is asked for, which is 3 alone: USAGE where it is another, else as `realm_upgrade`. */
uint32_t realm_upgrade_to(const uint8_t *text, size_t length, uint32_t format, uint8_t *out, size_t room, uint64_t *written);

/* The text of a graph, and behind it that of a trace: is the graph accepted and the trace lawful?
   DONE where they are; UNREAD, UNFIT, NO_MEMORY, TOO_LONG, UNLAWFUL. */
uint32_t realm_audit(const uint8_t *text, size_t length, struct realm_verdict *verdict);

/* A plan of the graph on 1 to 8 processors in virtual time, with its critical chain, as `timeline` writes it.
   DONE, USAGE, UNREAD, UNFIT, NO_ROOM, NO_MEMORY, TOO_LONG. */
uint32_t realm_plan(const uint8_t *text, size_t length, uint32_t processors, uint8_t *out, size_t room, uint64_t *written);

/* The word of a number of a verdict: of why for kind 0, of rule for kind 1, of fault for kind 2. DONE, USAGE, NO_ROOM. */
enum realm_word_kind { REALM_WHY_WORD = 0, REALM_RULE_WORD = 1, REALM_FAULT_WORD = 2 };
uint32_t realm_word(uint32_t kind, uint32_t number, uint8_t *out, size_t room, uint64_t *written);

/* A run of a graph, and the work of one of its lines. Of zero bytes both are empty; only the calls below write them. A copy of
   one names the same thing, and where that is used up each copy says so. A run whose lines are performed by realm_run_all needs
   no other call than new, report and free. Threads that perform lines themselves issue, take and put back one at a time, under
   a lock of the program's, and perform side by side, since realm_work_perform takes no run. Whatever they do, the report is
   that of realm_eval, and where bodies of calls faulted that of an evaluation in which just those calls fault. */
struct realm_run { uint64_t at; };
struct realm_work { uint64_t at; };

/* The answers of the calls on runs, but of realm_run_new, whose numbers are those of realm_status. Each of these calls may answer
   misuse too (realm_misuse.h): EMPTY, USED_UP, WRONG and IN_USE of each handle, and what stands beside the call. */
enum realm_run_status {
    REALM_RUN_DONE = 0, REALM_RUN_NOT_YET = 1, REALM_RUN_BUSY_LOCK = 2, REALM_RUN_BUSY_COLUMN = 3, REALM_RUN_NONE = 4,
    REALM_RUN_FULL = 5, REALM_RUN_NO_ROOM = 6, REALM_RUN_NO_MEMORY = 7, REALM_RUN_OVER = 9, REALM_RUN_NEVER = 10,
    REALM_RUN_WRONG = 11
};

/* A call is an operation whose body is a function of the program's own (docs/LANGUAGE.md, "Calls"). What a body is told: */
enum realm_mode { REALM_READ = 0, REALM_WRITE = 1, REALM_SUM = 2, REALM_MIN = 3, REALM_MAX = 4 };
struct realm_access {
    uint32_t mode;       /* WRITE stands for reading and writing; a reduction of floating point is a WRITE too */
    uint32_t column;     /* of data, from 0 in the order of the text */
    uint32_t space;      /* from 0 in the order of the text */
};
struct realm_call {
    char word[64];       /* by which the program knows the body, with a zero byte behind it */
    uint32_t operation;  /* its number, as realm_run_issue gives it */
    uint32_t values, accesses;
    uint64_t value[4];
    struct realm_access access[8];
    const void *work;    /* for realm_call_interval, while the body runs */
};
struct realm_interval { uint32_t first, last; };

/* Checks a graph as realm_check does, and begins a run of it with so many event slots, at most 8,192; 0 stands for the
   greater of 256 and the need, up to 8,192. DONE; SLOTS exactly where the graph is accepted and they are fewer than its need, or
   8,192 are where 0 stands, want of memory aside; USAGE exactly where they are more than 8,192; UNREAD, UNFIT, NO_MEMORY,
   TOO_LONG. After each answer but DONE out is empty. Misuse: FILLED where out holds something. */
uint32_t realm_run_new(const uint8_t *text, size_t length, uint32_t slots, struct realm_run *out, struct realm_verdict *verdict);

/* Performs all that can be performed, on 1 to 8 threads: the calling one, and others that are started and have ended as the
   call returns; where the system starts fewer, those do all. 0 stands for 1. What was issued before is gone on with. Then
   what is left waits for what never comes, and a report says the rest.
   DONE; NO_MEMORY, and then the run may be gone on with. Misuse: RANGE where there are more threads than 8, WORK_OUT, REPORTED;
   NO_BODY where the graph has a call, and then nothing is performed; FORGOTTEN where operations could still be taken at the end, which never should be; they are performed then. The loop is tested,
   not proved; each of its steps is a proved call of those below, and no answer of it makes a report wrong. */
uint32_t realm_run_all(struct realm_run *run, uint32_t threads);

/* The same, and runs the body of each call that is not cancelled: the function of the table with its word, the first one of several,
   by the thread that performs the call, with the context that stands beside it. Bodies run side by side; those that reduce into
   one column take turns, as do some that reduce into others. A body uses no memory of data but that of its call's accesses, and
   changes none that it only reads. It answers 0, or a fault, which is any other number: the event of its call is poisoned then, and
   what it wrote stands. It returns, and leaves in no other way. It may call the library, but calls on this run answer IN_USE.
   The table and its words stay as they are meanwhile. DONE also where bodies faulted: the report tells which calls did. Misuse: NO_BODY
   where a call of the graph has a word that is not in the table, and then nothing is performed. */
struct realm_body {
    const char *word;
    uint32_t (*run)(const struct realm_call *call, void *context);
    void *context;
};
uint32_t realm_run_all_with(struct realm_run *run, uint32_t threads, const struct realm_body *bodies, size_t count);

/* Of a call that a body was handed, by the thread of that body: interval `number`, from 0, of the space of access `access`. DONE;
   NONE where there is no such one. */
uint32_t realm_call_interval(const struct realm_call *call, uint32_t access, uint32_t number, struct realm_interval *interval);

/* Issues the next operation of the text. DONE with its number, from 0 in the order of the text, merges and user events included
   and declarations not (verdict.line and explanations count lines of the text, from 1); NONE exactly where all are issued; FULL
   exactly where one is left and no slot is free: try again after a realm_run_put_back. Misuse: REPORTED. */
uint32_t realm_run_issue(struct realm_run *run, uint32_t *line);

/* Takes an issued operation. DONE with its work; NOT_YET where it waits for the operation `other`, and perhaps for more: if that
   is issued, realm_run_woken gives the line once it has ended, or before; if it is not, nothing does, so try again when it is issued;
   BUSY_LOCK, BUSY_COLUMN where the reservation or the column `other` is with another operation: try again after a
   realm_run_put_back. A column is with one operation at a time, also where their points are apart, but those that only read it may
   have it together. One whose wait is poisoned is taken, performed and put back too: it does nothing then, and only the report
   tells; OVER where it is not issued, is out or has ended; NEVER where it never comes; NO_MEMORY, and then nothing changed. Misuse:
   RANGE where the graph has no such operation; FILLED where out holds something; REPORTED. */
uint32_t realm_run_take(struct realm_run *run, uint32_t line, struct realm_work *out, uint32_t *other);

/* The call of an operation that was taken. DONE; NONE where it is no call, and where its wait is poisoned, so that its body is not
   to be run; call is then left as it was. A program runs the body between this and realm_work_finish, side by side with others:
   what is out does not conflict, but where both reduce into one column in sections of their own; those take turns by a lock of
   the program's. The struct is put together in C of the answers of proved calls; of it `operation` and `work` are 0.
   Misuse: PERFORMED. */
uint32_t realm_work_call(struct realm_work *work, struct realm_call *call);

/* Interval `number`, from 0, of the space of access `access` of the call. DONE; NONE where there is no such interval or access.
   Misuse: PERFORMED. */
uint32_t realm_work_interval(struct realm_work *work, uint32_t access, uint32_t number, struct realm_interval *interval);

/* Performs an operation that was taken, a call as one whose body is fine. DONE. Misuse: PERFORMED. */
uint32_t realm_work_perform(struct realm_work *work);

/* The same with a verdict on the body of a call: FAULT where it faulted, so that the event of the call is poisoned. DONE. Misuse: PERFORMED;
   WRONG where a fault is said of an operation that is no call, or is cancelled; RANGE where the verdict is another number. */
enum realm_body_verdict { REALM_FINE = 0, REALM_FAULT = 1 };
uint32_t realm_work_finish(struct realm_work *work, uint32_t verdict);

/* Puts an operation back that was performed: it ends. DONE; the work is used up, and its struct is empty. Misuse: OTHER_RUN where
   it was taken from another run, UNPERFORMED, REPORTED. */
uint32_t realm_run_put_back(struct realm_run *run, struct realm_work *work);

/* An operation that waited for one that has ended, each once. DONE; NONE where there is none. Misuse: REPORTED. */
uint32_t realm_run_woken(struct realm_run *run, uint32_t *line);

/* How many operations of a run are where; the first four add up to those of the graph. */
struct realm_run_lines {
    uint32_t unissued;
    uint32_t issued;   /* and not taken: they may wait, be busy, or never come */
    uint32_t out;      /* taken, and not put back */
    uint32_t ended;
    uint32_t left;     /* not ended, without user events and phases that never come; what waits for these counts */
};

/* DONE. Misuse: REPORTED. After each answer but DONE all are 0. */
uint32_t realm_run_state(struct realm_run *run, struct realm_run_lines *lines);

/* Does what is left on the calling thread, and gives the report. DONE, NO_ROOM, NO_MEMORY; it may be called again, and nothing
   else but free is done with the run from then on. Misuse: WORK_OUT, also where work was freed that was not put back: such a
   run never gives a report; CALLS_LEFT where a call is left, one that has not ended and that nothing which never comes reaches: a
   report has no body for it. That this answer comes only there is proved, that it comes each time is tested. */
uint32_t realm_run_report(struct realm_run *run, uint8_t *out, size_t room, uint64_t *written);

/* Frees a run, or work that is not to be put back: its operation is out for good. DONE; the struct is then empty. They may be freed
   in any order, and the last of them frees the graph. A column that the work only reads is then not given back to memory; nor is it
   where the run is freed first. */
uint32_t realm_run_free(struct realm_run *run);
uint32_t realm_work_free(struct realm_work *work);

/* What the program realm-explain writes of the text, for people: of a text that is refused where and why it is, and of an accepted
   graph what it needs and why operations wait. DONE whether or not the text is accepted; NO_ROOM, NO_MEMORY, TOO_LONG. */
uint32_t realm_explain(const uint8_t *text, size_t length, uint8_t *out, size_t room, uint64_t *written);

/* One line on an answer, without an end of line: of a number of realm_status, or of one of realm_run_status. Either has a line on
   each number of realm_misuse, and one that says so on a number that is none of these. DONE, NO_ROOM. */
uint32_t realm_message(uint32_t status, uint8_t *out, size_t room, uint64_t *written);
uint32_t realm_run_message(uint32_t status, uint8_t *out, size_t room, uint64_t *written);

/* The version of the library, which should be that of the headers, REALM_VERSION. */
const char *realm_version(void);

#ifdef __cplusplus
}
#endif
#endif
