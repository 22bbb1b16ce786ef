// A network file: reading it, checking it, and the arrows of its rules. Shared by the C++ programs that are timed.
#pragma once
#include <cstddef>
#include <cstdint>
#include <cstring>
#include <vector>

using Schedule = uint64_t (*)(const uint8_t *file, size_t size, uint8_t *out, size_t room);

constexpr size_t kHeader = 22, kRecord = 18;

// All programs are built for x86-64, so a number in a file lies as it does in memory.
inline int32_t number_at(const uint8_t *file, size_t at) {
    int32_t x;
    std::memcpy(&x, file + at, 4);
    return x;
}

inline void put_number(uint8_t *out, size_t at, int32_t x) { std::memcpy(out + at, &x, 4); }

inline bool within(int32_t low, int32_t high, int32_t x) { return low <= x && x <= high; }

inline bool marked(const uint8_t *file, size_t at, char first, char second) {
    return file[at] == uint8_t(first) && file[at + 1] == uint8_t(second);
}

// What the hold rule of a path is charged of the uncertainty.
inline int32_t hold_charge(int32_t from, int32_t to, int32_t u) { return from == to ? 0 : u; }

// Number and place in one integer, as the module's header packs them.
inline uint64_t refusal(uint32_t number, size_t place = 0) { return number | uint64_t(place) << 32; }

inline bool register_fits(const uint8_t *file, size_t i) {
    const size_t at = kHeader + kRecord * i;
    const int32_t setup = number_at(file, at + 2), hold = number_at(file, at + 6);
    const int32_t low = number_at(file, at + 10), high = number_at(file, at + 14);
    return marked(file, at, 'R', 'G') && within(-100000, 100000, setup) && within(-100000, 100000, hold)
        && within(-1000000, 1000000, low) && within(low, 1000000, high) && (i != 0 || (low == 0 && high == 0));
}

inline bool path_fits(const uint8_t *file, int32_t n, size_t p) {
    const size_t at = kHeader + kRecord * (size_t(n) + p);
    const int32_t from = number_at(file, at + 2), to = number_at(file, at + 6);
    const int32_t dmin = number_at(file, at + 10), dmax = number_at(file, at + 14);
    return marked(file, at, 'P', 'T') && within(0, n - 1, from) && within(0, n - 1, to) && within(0, 1000000, dmin)
        && within(dmin, 1000000, dmax);
}

// The refusals before the solving, 0 where there is none.
inline uint64_t refused(const uint8_t *file, size_t size, size_t room) {
    if (size < kHeader || !marked(file, 0, 'N', 'W')) return refusal(1);
    const int32_t n = number_at(file, 2), m = number_at(file, 6);
    if (!within(1, 256, n) || !within(0, 2048, m)) return refusal(2);
    if (size != kHeader + kRecord * size_t(n + m)) return refusal(3);
    const int32_t floor = number_at(file, 10), ceiling = number_at(file, 14);
    if (!within(1, 10000000, floor) || !within(floor, 10000000, ceiling) || !within(0, 10000, number_at(file, 18)))
        return refusal(4);
    for (size_t i = 0; i < size_t(n); ++i)
        if (!register_fits(file, i)) return refusal(5, i);
    for (size_t p = 0; p < size_t(m); ++p)
        if (!path_fits(file, n, p)) return refusal(6, p);
    return room < 14 + 16 * size_t(n) ? refusal(7) : 0;
}

// A rule as an arrow whose amount is `fixed`, less the period where it is a setup rule. For the solvers of libraries, which bring graphs
// of their own.
struct Arrow {
    int tail, head;
    int64_t fixed;
    bool setup;
    int64_t amount(int64_t period) const { return setup ? fixed - period : fixed; }
};

inline std::vector<Arrow> arrows_of(const uint8_t *file) {
    const size_t n = size_t(number_at(file, 2)), m = size_t(number_at(file, 6));
    const int32_t u = number_at(file, 18);
    std::vector<Arrow> arrows;
    arrows.reserve(2 * (n + m));
    for (size_t i = 1; i < n; ++i) {
        const size_t at = kHeader + kRecord * i;
        arrows.push_back({0, int(i), number_at(file, at + 10), false});
        arrows.push_back({int(i), 0, -int64_t(number_at(file, at + 14)), false});
    }
    for (size_t p = 0; p < m; ++p) {
        const size_t at = kHeader + kRecord * (n + p);
        const int from = number_at(file, at + 2), to = number_at(file, at + 6);
        const size_t receiver = kHeader + kRecord * size_t(to);
        arrows.push_back({to, from, number_at(file, receiver + 6) + hold_charge(from, to, u) - number_at(file, at + 10), false});
        arrows.push_back({from, to, number_at(file, at + 14) + number_at(file, receiver + 2) + u, true});
    }
    return arrows;
}

// The smallest whole number not below sum / count.
inline int64_t rounded_up(int64_t sum, int64_t count) { return sum > 0 ? (sum + count - 1) / count : -(-sum / count); }

inline void put_head(uint8_t *out, int32_t period, int32_t latencies, int32_t entries) {
    out[0] = 'S', out[1] = 'K';
    put_number(out, 2, period), put_number(out, 6, latencies), put_number(out, 10, entries);
}

inline void put_latency(uint8_t *out, size_t i, int32_t latency) {
    out[14 + 6 * i] = 'L', out[15 + 6 * i] = 'T';
    put_number(out, 16 + 6 * i, latency);
}
