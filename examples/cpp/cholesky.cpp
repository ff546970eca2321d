// The factorisation of examples/c/cholesky.c, with bodies in C++. Usage: cholesky SIDE TILE THREADS
#include "realm.hpp"
#include "tiles.h"
#include <cstdlib>
#include <cstring>
#include <iostream>
#include <vector>

// Performs the graph by threads. The number of what was answered, 0 for done.
static uint32_t run_graph(const matrix &m, uint32_t threads) {
    size_t length;
    char *text = graph_of(m.tiles, &length);
    realm::Run run;
    uint32_t status = run.begin({text, length}).status;
    free(text);
    if (status) return status;
    return run.perform_all(threads, {
        {"potrf", [&](const realm_call &call) { potrf(m.side, tile(&m, call.value[0], call.value[0])); }},
        {"trsm", [&](const realm_call &call) { trsm(m.side, tile(&m, call.value[1], call.value[1]), tile(&m, call.value[0], call.value[1])); }},
        {"gemm", [&](const realm_call &call) {
            uint64_t i = call.value[0], j = call.value[1], k = call.value[2];
            gemm(m.side, tile(&m, i, k), tile(&m, j, k), tile(&m, i, j));
        }},
    });
}

int main(int count, char **words) {
    if (count != 4) return std::cerr << "usage: cholesky SIDE TILE THREADS\n", 2;
    uint32_t side = std::atoi(words[1]), of_tile = std::atoi(words[2]), threads = std::atoi(words[3]);
    if (!of_tile || side % of_tile || side < of_tile) return std::cerr << "cholesky: TILE has to divide SIDE\n", 2;
    std::vector<double> one(size_t(side) * side), many(one.size());
    matrix by_one{side / of_tile, of_tile, one.data()}, by_many{side / of_tile, of_tile, many.data()};
    fill(&by_one);
    fill(&by_many);
    factorise(&by_one);
    uint32_t status = run_graph(by_many, threads);
    bool is_same = !status && !std::memcmp(one.data(), many.data(), one.size() * sizeof(double));
    std::cout << (status ? "the run was refused" : is_same ? "the same, bit by bit" : "another result") << "\n";
    return !is_same;
}
