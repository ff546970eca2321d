// The same tasks as a flow graph of oneTBB, whose edges are known beforehand: nodes and edges are made and run within the time.
#include "beside.h"
#include <memory>
#include <oneapi/tbb/flow_graph.h>
#include <oneapi/tbb/global_control.h>
#include <vector>

using node = oneapi::tbb::flow::continue_node<oneapi::tbb::flow::continue_msg>;
static std::unique_ptr<oneapi::tbb::global_control> control;

static int begin(int threads, uint32_t) {
    control = std::make_unique<oneapi::tbb::global_control>(oneapi::tbb::global_control::max_allowed_parallelism, threads);
    return 0;
}

static void run(const bench_graph *graph) {
    oneapi::tbb::flow::graph flow;
    std::vector<std::unique_ptr<node>> nodes;
    std::vector<char> waits(graph->tasks);
    long steps = graph->steps;
    for (uint32_t t = 0; t < graph->tasks; t++)
        nodes.push_back(std::make_unique<node>(flow, [steps](const oneapi::tbb::flow::continue_msg &) { bench_body(steps); }));
    for (uint32_t e = 0; e < graph->edge_count; e++) {
        oneapi::tbb::flow::make_edge(*nodes[graph->edges[2 * e]], *nodes[graph->edges[2 * e + 1]]);
        waits[graph->edges[2 * e + 1]] = 1;
    }
    for (uint32_t t = 0; t < graph->tasks; t++)
        if (!waits[t]) nodes[t]->try_put(oneapi::tbb::flow::continue_msg());
    flow.wait_for_all();
}

static void end() { control.reset(); }

extern "C" const bench_library bench_tbb = {"oneTBB flow graph", begin, run, end, nullptr, nullptr};
