// Lambdas as tasks: a vector is filled tile by tile, its tiles are summed side by side, and one task adds the sums up.
#include "realm.hpp"
#include <cstdio>

constexpr uint32_t tiles = 8, of_tile = 1000;

int main() {
    std::vector<double> cells(tiles * of_tile), sums(tiles);
    double sum = 0, *total = &sum, *parts = sums.data();
    realm_data of_cells{}, of_sums{}, of_total{};
    realm::Tasks tasks;
    uint32_t status = tasks.begin(4);
    if (!status) status = tasks.data(cells.data(), cells.size() * sizeof(double), of_cells);
    if (!status) status = tasks.data(parts, sums.size() * sizeof(double), of_sums);
    if (!status) status = tasks.data(total, sizeof sum, of_total);
    if (!status) status = tasks.tiles(of_cells, std::vector<size_t>(tiles, of_tile * sizeof(double)));
    if (!status) status = tasks.tiles(of_sums, std::vector<size_t>(tiles, sizeof(double)));
    for (uint32_t k = 0; k < tiles && !status; k++) {
        double *at = &cells[k * of_tile], *part = &parts[k];
        status = tasks.insert({realm_writes_tile(of_cells, k)}, [=] { for (uint32_t i = 0; i < of_tile; i++) at[i] = k * of_tile + i; });
        if (status) break;
        status = tasks.insert({realm_reads_tile(of_cells, k), realm_writes_tile(of_sums, k)}, [=] { for (uint32_t i = 0; i < of_tile; i++) *part += at[i]; });
    }
    // what a task accesses may stand in a vector too
    const std::vector<realm_use> both = {realm_reads(of_sums), realm_writes(of_total)};
    if (!status) status = tasks.insert(both, [=] { for (uint32_t k = 0; k < tiles; k++) *total += parts[k]; });
    // a body may answer a fault; what depends on it is not run
    if (!status) status = tasks.insert({realm_reads(of_total)}, [=] { return *total == 31996000 ? 0u : 1u; });
    if (!status) status = tasks.wait();
    if (status) return std::printf("%s\n", realm::tasks_message(status).c_str()), 1;
    std::printf("%.0f\n", sum);
}
