/* A loop whose call on woken lines gives none forgets the lines that wait; it does not wait, says so and performs them.
   Link with -Wl,--wrap=proved_realm_run_woken. The status is 0 where it is so. */
#include "realm.h"
#include <stdio.h>
#include <string.h>

static const char text[] = "realm 1\nspace s 0..0\ninst a s x\nu = user\nf = fill a.x s 7 on u\nt = trigger u\nend\n";
static const char report[] = "realm-report 1\nop u done triggered\nop f done triggered\nop t done triggered\ncells a.x 0..0 7\ndone\n";

uint32_t __wrap_proved_realm_run_woken(void *run, uint32_t *line);
uint32_t __wrap_proved_realm_run_woken(void *run, uint32_t *line) {
    (void)run, (void)line;
    return REALM_RUN_NONE;
}

int main(void) {
    for (uint32_t threads = 1; threads <= 8; threads++) {
        struct realm_run run = {0};
        struct realm_verdict verdict;
        struct realm_run_lines lines;
        uint8_t out[256];
        uint64_t written;
        uint32_t begun = realm_run_new((const uint8_t *)text, sizeof text - 1, 0, &run, &verdict), all = realm_run_all(&run, threads);
        uint32_t state = realm_run_state(&run, &lines), told = realm_run_report(&run, out, sizeof out, &written);
        realm_run_free(&run);
        int is_other = told || written != sizeof report - 1 || memcmp(out, report, written);
        if (begun || all != REALM_MISUSE_FORGOTTEN || state || lines.left != 0 || is_other) {
            printf("%u threads: new %u, all %u, state %u with %u left, report %u\n", threads, begun, all, state, lines.left, told);
            return 1;
        }
    }
    puts("a line that is forgotten is told");
    return 0;
}
