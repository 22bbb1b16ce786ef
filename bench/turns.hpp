// Turns: one program solves all networks of a set, several times over, and the clock is read before and after.
#pragma once
#include <algorithm>
#include <chrono>

#include "sets.hpp"

inline double now() {
    return std::chrono::duration<double>(std::chrono::steady_clock::now().time_since_epoch()).count();
}

// Seconds for one network.
inline double turn(Schedule schedule, const std::vector<File> &files, int repeats) {
    static uint8_t out[8192];
    static volatile uint64_t sink;
    const double start = now();
    for (int r = 0; r < repeats; ++r)
        for (const File &file : files) sink = sink + schedule(file.data(), file.size(), out, sizeof out);
    return (now() - start) / (double(repeats) * double(files.size()));
}

// Repeats that make a turn long enough for the clock: 0.2 ms.
inline int repeats_for(Schedule schedule, const std::vector<File> &files) {
    const double once = turn(schedule, files, 1) * double(files.size());
    return std::max(1, int(0.0002 / once));
}

// Whether two results agree on number, place, period and latencies. The loops that are shown may differ.
inline bool agree(uint64_t result, const std::vector<uint8_t> &out, uint64_t other, const std::vector<uint8_t> &other_out, size_t n) {
    if (result != other) return false;
    return result != 0 || (number_at(&out[2], 0) == number_at(&other_out[2], 0) && std::equal(&out[14], &out[14 + 6 * n], &other_out[14]));
}
