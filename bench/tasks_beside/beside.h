/* What bench/tasks measures: tasks of which each writes one datum and reads up to two others, by each library in turn. In C and C++. */
#ifndef BESIDE_H
#define BESIDE_H
#include <stdint.h>
#ifdef __cplusplus
extern "C" {
#endif

struct bench_task { uint32_t uses, datum[3]; };   /* the first is written, the others are read */
struct bench_graph {
    uint32_t tasks, data;
    const struct bench_task *task;
    const uint32_t *edges;          /* pairs: what waits for what; for libraries that want them */
    uint32_t edge_count;
    long steps;                     /* of each body */
};

/* A body of so many steps, none of which can be begun before the one before it. */
static inline void bench_body(long steps) {
    uint64_t at = 1;
    for (long k = 0; k < steps; k++) {
        at = at * 6364136223846793005u + 1442695040888963407u;
        __asm__ volatile("" : "+r"(at));
    }
}

/* Each makes its threads ready, so many with the calling one; runs the tasks; and ends its threads. Those that are not built are absent. A
   library whose threads don't sleep between runs is told when one begins and ends, which is not timed. */
struct bench_library {
    const char *name;
    int (*begin)(int threads, uint32_t most_data);
    void (*run)(const struct bench_graph *graph);
    void (*end)(void);
    void (*rouse)(void);
    void (*rest)(void);
};
extern const struct bench_library bench_realm, bench_openmp, bench_tbb, bench_starpu;

#ifdef __cplusplus
}
#endif
#endif
