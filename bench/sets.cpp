#include "sets.hpp"

#include <algorithm>
#include <filesystem>
#include <fstream>
#include <iterator>
#include <map>

namespace {

constexpr int kNetworks = 12;

// Bare chains and races are rows of 64 to 255 registers beside the host; of the other shapes each size is double the one before.
std::vector<int> sizes(const std::string &shape) {
    if (shape.compare(0, 4, "bare") == 0) return {65, 97, 129, 193, 256};
    return {16, 32, 64, 128, 256};
}

File contents(const std::filesystem::path &path) {
    std::ifstream in(path, std::ios::binary);
    return File(std::istreambuf_iterator<char>(in), {});
}

Set set_of(const std::string &shape, std::vector<File> files) {
    const uint8_t *first = files[0].data();
    return {shape, number_at(first, 2), number_at(first, 6), std::move(files)};
}

} // namespace

Set drawn(const std::string &shape, int n, int m, uint64_t seed) {
    std::vector<File> files;
    for (int k = 0; k < kNetworks; ++k) files.push_back(make(shape, n, m, seed * 1000003 + uint64_t(k)));
    return set_of(shape, std::move(files));
}

std::vector<Set> all_drawn(uint64_t seed) {
    std::vector<Set> sets;
    for (const std::string &shape : shapes())
        for (int n : sizes(shape)) sets.push_back(drawn(shape, n, 8 * n, seed));
    return sets;
}

std::vector<Set> real_sets(const std::string &folder) {
    std::map<std::string, std::vector<File>> circuits;
    if (!folder.empty()) {
        std::vector<std::filesystem::path> paths;
        for (const auto &entry : std::filesystem::directory_iterator(folder)) paths.push_back(entry.path());
        std::sort(paths.begin(), paths.end());
        for (const auto &path : paths) {
            const std::string name = path.stem().string();
            circuits[name.substr(0, name.find('-'))].push_back(contents(path));
        }
    }
    std::vector<Set> sets;
    for (auto &circuit : circuits) sets.push_back(set_of("real", std::move(circuit.second)));
    std::stable_sort(sets.begin(), sets.end(), [](const Set &a, const Set &b) { return a.n < b.n; });
    return sets;
}
