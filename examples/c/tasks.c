/* Three functions as tasks: two fill an array each, side by side, and one adds them up when both have ended. */
#include "realm_tasks.h"
#include <stdio.h>
static double a[1000], b[1000], sum;
static uint32_t fill(void *array) { for (int i = 0; i < 1000; i++) ((double *)array)[i] = i; return 0; }
static uint32_t add_up(void *factor) { for (int i = 0; i < 1000; i++) sum += *(double *)factor * a[i] * b[i]; return 0; }
int main(void) {
    struct realm_tasks tasks = REALM_NO_TASKS;
    struct realm_data of_a = REALM_NO_DATA, of_b = REALM_NO_DATA, of_sum = REALM_NO_DATA;
    uint64_t task;
    double two = 2;
    if (realm_tasks_new(4, &tasks)) return 1;                                     /* four workers */
    if (realm_data_new(&tasks, a, sizeof a, &of_a)) return 1;
    if (realm_data_new(&tasks, b, sizeof b, &of_b)) return 1;
    if (realm_data_new(&tasks, &sum, sizeof sum, &of_sum)) return 1;
    struct realm_use writes_a[] = {realm_writes(of_a)}, writes_b[] = {realm_writes(of_b)};
    struct realm_use reads_both[] = {realm_reads(of_a), realm_reads(of_b), realm_writes(of_sum)};
    if (realm_insert(&tasks, fill, a, writes_a, 1, &task)) return 1;
    if (realm_insert(&tasks, fill, b, writes_b, 1, &task)) return 1;
    if (realm_insert(&tasks, add_up, &two, reads_both, 3, &task)) return 1;       /* waits for both */
    if (realm_wait(&tasks, 0)) return 1;                                          /* a body answered a fault */
    printf("%.0f\n", sum);
    return (int)realm_tasks_free(&tasks);
}
