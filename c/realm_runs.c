/* The calls on runs and works: numbers are looked up in the table of handles, and the proved calls do the rest. No lock is held
   here; what is entered is this call's alone. */
#include "proved_calls.h"

uint32_t realm_run_new(const uint8_t *text, size_t length, uint32_t slots, struct realm_run *out, struct realm_verdict *verdict) {
    struct realm_entry *made;
    *verdict = (struct realm_verdict){0};
    uint32_t status = realm_reserve(&out->at, &made);
    if (status) return status;
    return realm_fill(made, KIND_RUN, proved_realm_run_new(text, length, slots, &made->held, verdict), &out->at);
}

uint32_t realm_run_issue(struct realm_run *run, uint32_t *line) {
    struct realm_entry *entry;
    uint32_t status = realm_enter(&run->at, KIND_RUN, &entry);
    if (status) return status;
    status = proved_realm_run_issue(&entry->held, line);
    realm_leave(entry);
    return status;
}

uint32_t realm_run_take(struct realm_run *run, uint32_t line, struct realm_work *out, uint32_t *other) {
    struct realm_entry *entry, *made;
    uint32_t status = realm_enter(&run->at, KIND_RUN, &entry);
    if (status) return status;
    status = realm_reserve(&out->at, &made);
    if (status == REALM_DID) {
        made->run = realm_number(entry);
        status = realm_fill(made, KIND_WORK, proved_realm_run_take(&entry->held, line, &made->held, other), &out->at);
    }
    realm_leave(entry);
    return status;
}

uint32_t realm_work_perform(struct realm_work *work) {
    struct realm_entry *entry;
    uint32_t status = realm_enter(&work->at, KIND_WORK, &entry);
    if (status) return status;
    status = proved_realm_work_perform(&entry->held);
    realm_leave(entry);
    return status;
}

uint32_t realm_work_finish(struct realm_work *work, uint32_t verdict) {
    struct realm_entry *entry;
    uint32_t status = realm_enter(&work->at, KIND_WORK, &entry);
    if (status) return status;
    status = proved_realm_work_finish(&entry->held, verdict);
    realm_leave(entry);
    return status;
}

/* What the call of work tells, of a struct that is empty. The proved calls say how many values and accesses there are. */
uint32_t realm_tell_call(struct proved_held *work, struct realm_call *call) {
    struct realm_call told = {0};
    uint64_t written;
    uint32_t status = proved_realm_work_word(work, (uint8_t *)told.word, sizeof told.word - 1, &written);
    if (status) return status;
    while (told.values < sizeof told.value / sizeof *told.value && !proved_realm_work_value(work, told.values, &told.value[told.values])) told.values++;
    while (told.accesses < sizeof told.access / sizeof *told.access && !proved_realm_work_access(work, told.accesses, &told.access[told.accesses]))
        told.accesses++;
    *call = told;
    return REALM_RUN_DONE;
}

uint32_t realm_work_call(struct realm_work *work, struct realm_call *call) {
    struct realm_entry *entry;
    uint32_t status = realm_enter(&work->at, KIND_WORK, &entry);
    if (status) return status;
    status = realm_tell_call(&entry->held, call);
    realm_leave(entry);
    return status;
}

uint32_t realm_call_interval(const struct realm_call *call, uint32_t access, uint32_t number, struct realm_interval *interval) {
    return call->work ? proved_realm_work_interval((struct proved_held *)call->work, access, number, interval) : REALM_RUN_NONE;
}

uint32_t realm_work_interval(struct realm_work *work, uint32_t access, uint32_t number, struct realm_interval *interval) {
    struct realm_entry *entry;
    uint32_t status = realm_enter(&work->at, KIND_WORK, &entry);
    if (status) return status;
    status = proved_realm_work_interval(&entry->held, access, number, interval);
    realm_leave(entry);
    return status;
}

/* Puts work back that is entered, into a run that is entered. Work that is of another run is not put back. */
static uint32_t put_back(struct realm_entry *run, struct realm_entry *work) {
    if (work->run != realm_number(run)) return REALM_MISUSE_OTHER_RUN;
    return proved_realm_run_put_back(&run->held, &work->held);
}

uint32_t realm_run_put_back(struct realm_run *run, struct realm_work *work) {
    struct realm_entry *into, *of;
    uint32_t status = realm_enter_both(&run->at, KIND_RUN, &into, &work->at, KIND_WORK, &of);
    if (status) return status;
    status = put_back(into, of);
    if (status == REALM_DID) realm_release(of, &work->at);
    else realm_leave(of);
    realm_leave(into);
    return status;
}

uint32_t realm_run_woken(struct realm_run *run, uint32_t *line) {
    struct realm_entry *entry;
    uint32_t status = realm_enter(&run->at, KIND_RUN, &entry);
    if (status) return status;
    status = proved_realm_run_woken(&entry->held, line);
    realm_leave(entry);
    return status;
}

uint32_t realm_run_state(struct realm_run *run, struct realm_run_lines *lines) {
    struct realm_entry *entry;
    *lines = (struct realm_run_lines){0};
    uint32_t status = realm_enter(&run->at, KIND_RUN, &entry);
    if (status) return status;
    status = proved_realm_run_state(&entry->held, lines);
    realm_leave(entry);
    return status;
}

uint32_t realm_run_report(struct realm_run *run, uint8_t *out, size_t room, uint64_t *written) {
    struct realm_entry *entry;
    *written = 0;
    uint32_t status = realm_enter(&run->at, KIND_RUN, &entry);
    if (status) return status;
    status = proved_realm_run_report(&entry->held, out, room, written);
    realm_leave(entry);
    return status;
}

/* Frees what a handle holds, by the proved call for its kind. */
static uint32_t let_go(uint64_t *handle, uint32_t kind, void (*end)(struct proved_held *)) {
    struct realm_entry *entry;
    uint32_t status = realm_enter(handle, kind, &entry);
    if (status) return status;
    end(&entry->held);
    realm_release(entry, handle);
    return REALM_DID;
}

uint32_t realm_run_free(struct realm_run *run) { return let_go(&run->at, KIND_RUN, proved_realm_run_free); }

uint32_t realm_work_free(struct realm_work *work) { return let_go(&work->at, KIND_WORK, proved_realm_work_free); }

const char *realm_version(void) { return REALM_VERSION; }
