/* The same tasks by StarPU, inserted in order with handles of data. */
#include "beside.h"
#include <starpu.h>
#include <stdlib.h>

static starpu_data_handle_t *handles;
static uint8_t *cells;
static uint32_t handle_count;

static void body(void *buffers[], void *argument) {
    (void)buffers;
    bench_body((long)(intptr_t)argument);
}

static struct starpu_codelet codelets[4];

static int begin(int threads, uint32_t most) {
    struct starpu_conf conf;
    starpu_conf_init(&conf);
    conf.ncpus = threads;
    conf.ncuda = conf.nopencl = 0;
    if (starpu_init(&conf)) return 1;
    for (int uses = 0; uses < 4; uses++) {
        codelets[uses].cpu_funcs[0] = body;
        codelets[uses].nbuffers = uses;
        codelets[uses].modes[0] = STARPU_RW;
        codelets[uses].modes[1] = codelets[uses].modes[2] = STARPU_R;
    }
    handle_count = most;
    handles = malloc(most * sizeof *handles);
    cells = malloc(64 * (size_t)most);
    starpu_pause();
    for (uint32_t k = 0; k < most; k++) starpu_vector_data_register(&handles[k], STARPU_MAIN_RAM, (uintptr_t)(cells + 64 * (size_t)k), 64, 1);
    return 0;
}

static void run(const struct bench_graph *graph) {
    for (uint32_t t = 0; t < graph->tasks; t++) {
        const struct bench_task *it = &graph->task[t];
        struct starpu_task *task = starpu_task_create();
        task->cl = &codelets[it->uses];
        task->cl_arg = (void *)(intptr_t)graph->steps;
        for (uint32_t k = 0; k < it->uses; k++) task->handles[k] = handles[it->datum[k]];
        if (starpu_task_submit(task)) exit(1);
    }
    starpu_task_wait_for_all();
}

static void end(void) {
    starpu_resume();
    for (uint32_t k = 0; k < handle_count; k++) starpu_data_unregister(handles[k]);
    starpu_shutdown();
    free(handles);
    free(cells);
}

const struct bench_library bench_starpu = {"StarPU", begin, run, end, starpu_resume, starpu_pause};
