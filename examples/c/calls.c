/* Bodies of calls, one of which faults: what is ordered behind it is cancelled, the others are performed, and the report tells which.
   Usage: calls; the exit status is 0 where the report could be given. */
#include "realm.h"
#include <stdio.h>
#include <string.h>

static const char text[] =
    "realm 3\nspace s 0..3\ndata A s x,y\n"
    "load = call load write A.x s\n"
    "check = call check read A.x s on load\n"
    "use = call use read A.x s write A.y s on check\n"
    "log = call log\n"
    "end\n";

static double x[4], y[4];

static uint32_t load(const struct realm_call *call, void *context) {
    (void)call, (void)context;
    for (int i = 0; i < 4; i++) x[i] = i - 1;
    return 0;
}

/* Faults where a number is below 0. */
static uint32_t check(const struct realm_call *call, void *context) {
    (void)call, (void)context;
    for (int i = 0; i < 4; i++)
        if (x[i] < 0) return 1;
    return 0;
}

static uint32_t use(const struct realm_call *call, void *context) {
    (void)call, (void)context;
    memcpy(y, x, sizeof y);
    return 0;
}

static uint32_t note(const struct realm_call *call, void *context) {
    (void)call;
    ++*(int *)context;
    return 0;
}

int main(void) {
    int notes = 0;
    const struct realm_body bodies[] = {{"load", load, 0}, {"check", check, 0}, {"use", use, 0}, {"log", note, &notes}};
    struct realm_run run = {0};
    struct realm_verdict verdict;
    char report[512];
    uint64_t written;
    uint32_t status = realm_run_new((const uint8_t *)text, sizeof text - 1, 0, &run, &verdict);
    if (!status) status = realm_run_all_with(&run, 2, bodies, 4);
    if (!status) status = realm_run_report(&run, (uint8_t *)report, sizeof report, &written);
    if (!status) printf("%.*snotes %d\n", (int)written, report, notes);
    if (run.at) realm_run_free(&run);
    return (int)status;
}
