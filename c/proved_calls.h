/* The proved calls beneath, by the names that bin/build-c gives them. Each asks that one call at a time works on what it is handed,
   and that an `out` is empty: the table of handles sees to both. What else a clause asks stands beside the call. */
#ifndef REALM_PROVED_CALLS_H
#define REALM_PROVED_CALLS_H
#include "realm.h"
#include "realm_events.h"
#include "realm_handles.h"

/* realm_runs_c: each answers misuse by a number and changes nothing then. Work is put back into the run that it is of. */
uint32_t proved_realm_run_new(const uint8_t *text, size_t length, uint32_t slots, struct proved_held *out, struct realm_verdict *verdict);
uint32_t proved_realm_run_issue(struct proved_held *run, uint32_t *line);
uint32_t proved_realm_run_take(struct proved_held *run, uint32_t line, struct proved_held *out, uint32_t *other);
uint32_t proved_realm_work_perform(struct proved_held *work);
uint32_t proved_realm_work_finish(struct proved_held *work, uint32_t verdict);
uint32_t proved_realm_run_put_back(struct proved_held *run, struct proved_held *work);
uint32_t proved_realm_run_woken(struct proved_held *run, uint32_t *line);
uint32_t proved_realm_run_word(struct proved_held *run, uint32_t line, uint8_t *out, size_t room, uint64_t *written);
uint32_t proved_realm_work_word(struct proved_held *work, uint8_t *out, size_t room, uint64_t *written);
uint32_t proved_realm_work_value(struct proved_held *work, uint32_t k, uint64_t *value);
uint32_t proved_realm_work_access(struct proved_held *work, uint32_t k, struct realm_access *access);
uint32_t proved_realm_work_interval(struct proved_held *work, uint32_t k, uint32_t n, struct realm_interval *interval);
uint32_t proved_realm_run_state(struct proved_held *run, struct realm_run_lines *lines);
uint32_t proved_realm_run_report(struct proved_held *run, uint8_t *out, size_t room, uint64_t *written);
void proved_realm_run_free(struct proved_held *run);
void proved_realm_work_free(struct proved_held *work);

/* Over them (realm_runs.c): the call of work, put together. */
uint32_t realm_tell_call(struct proved_held *work, struct realm_call *call);

/* realm_events_c: the handles are of the kinds that the public page names, of one table, and an event was created in it. */
struct proved_event { uint32_t slot, gen; };
uint32_t proved_realm_events_new(uint32_t slots, uint32_t waiters, uint32_t last_gen, struct proved_held *owner);
uint32_t proved_realm_events_split(struct proved_held *place, struct proved_held *out);
uint32_t proved_realm_events_join(struct proved_held *place, struct proved_held *other);
uint32_t proved_realm_events_create(struct proved_held *owner, struct proved_held *pending, struct proved_event *event);
uint32_t proved_realm_events_waiter(struct proved_held *owner, struct proved_held *waiter, uint32_t *number);
uint32_t proved_realm_events_watch(struct proved_held *place, struct proved_event event, struct proved_held *waiter);
uint32_t proved_realm_events_end(struct proved_held *pending, uint32_t fate);
uint32_t proved_realm_events_leave(struct proved_held *pending);
uint32_t proved_realm_events_next(struct proved_held *ended, struct proved_held *waiter, uint32_t *number);
uint32_t proved_realm_events_receipt(struct proved_held *ended, struct proved_held *receipt);
uint32_t proved_realm_events_learn(struct proved_held *place, struct proved_held *receipt, struct proved_event *event);
uint32_t proved_realm_events_look(struct proved_held *place, struct proved_event event);
uint32_t proved_realm_events_close(struct proved_held *owner);
uint32_t proved_realm_events_closed_look(struct proved_held *closed, struct proved_event event);
uint32_t proved_realm_events_closed_place(struct proved_held *closed, uint32_t waiter, struct proved_event *event);
void proved_realm_events_free(struct proved_held *held);

/* realm_tasks_c: a window of tasks over pieces of memory, which are numbered from 0. A call that does not answer DONE changes nothing.
   new, add_pieces and insert answer NO_MEMORY too. */
struct realm_piece { uint32_t first, count; _Bool writes; };   /* consecutive pieces that a task accesses */
enum realm_window_status { REALM_WINDOW_DONE = 0, REALM_WINDOW_NONE = 4, REALM_WINDOW_NO_MEMORY = 7 };
uint32_t proved_realm_window_new(struct proved_held *window);
/* Adds pieces; `first` is the number of the first of them. RANGE where there would be too many. */
uint32_t proved_realm_window_add_pieces(struct proved_held *window, uint32_t count, uint32_t *first);
/* The number of the task is that within the window, from 0. RANGE where it has a piece that there is not. */
uint32_t proved_realm_window_insert(struct proved_held *window, const struct realm_piece *accesses, size_t count, uint32_t *task);
/* A task that is due, in the order in which they became so; NONE where none is. One that is cancelled has ended by this. */
uint32_t proved_realm_window_take(struct proved_held *window, uint32_t *task, uint32_t *is_cancelled);
/* RANGE where the task does not run. */
uint32_t proved_realm_window_end(struct proved_held *window, uint32_t task, uint32_t failed);
/* The number of a realm_task_state. RANGE where there is no such task. */
uint32_t proved_realm_window_status(struct proved_held *window, uint32_t task, uint32_t *status);
uint32_t proved_realm_window_left(struct proved_held *window, uint32_t *left);
/* The window has no tasks then, and keeps its pieces. WORK_OUT where tasks have not ended. */
uint32_t proved_realm_window_clear(struct proved_held *window);
void proved_realm_window_free(struct proved_held *window);
#endif
