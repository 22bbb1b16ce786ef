// The module's design in plain C++: two rows, preds, settling after each round, the circle looked for from a register whose walk back
// finds no end, a first loop of the heaviest arrows, and the need of a contradicting loop as the next period.
// Nothing is proved here and nothing is tuned: it shows what the design costs when written without regard to a prover.
#include "plain.hpp"

#include <algorithm>
#include <utility>

#include "network.hpp"

Counts counts;

namespace {

constexpr uint16_t kNone = 65535;
constexpr uint64_t kMany = 24; // rounds of the look after which the first row is kept

// Arrows in the order low, high, hold, setup: those that know no period are a prefix.
struct Memory {
    size_t n, m;
    uint16_t tail[4608], head[4608];
    int32_t amount[4608], base[2048];
    int32_t a[256], b[256];
    uint16_t pred[256], ring[256];
    int32_t row[256]; // kept with its preds: every trial of a period goes on from it
    uint16_t preds[256];
    size_t passed; // how many of the first arrows it meets
    size_t fixed() const { return 2 * (n - 1) + m; }
};

struct Relaxed {
    const int32_t *row; // the least schedule, where there are no entries
    size_t entries;     // of the contradicting loop in `ring`
    uint64_t rounds;
};

void fill(const uint8_t *file, Memory &g) {
    const int32_t u = number_at(file, 18);
    for (size_t i = 1; i < g.n; ++i) {
        const size_t at = kHeader + kRecord * i, low = i - 1, high = g.n - 1 + low;
        g.tail[low] = 0, g.head[low] = uint16_t(i), g.amount[low] = number_at(file, at + 10);
        g.tail[high] = uint16_t(i), g.head[high] = 0, g.amount[high] = -number_at(file, at + 14);
    }
    for (size_t p = 0; p < g.m; ++p) {
        const size_t at = kHeader + kRecord * (g.n + p), hold = 2 * (g.n - 1) + p, setup = hold + g.m;
        const int32_t from = number_at(file, at + 2), to = number_at(file, at + 6);
        const size_t receiver = kHeader + kRecord * size_t(to);
        g.tail[hold] = g.head[setup] = uint16_t(to);
        g.head[hold] = g.tail[setup] = uint16_t(from);
        g.amount[hold] = number_at(file, receiver + 6) + hold_charge(from, to, u) - number_at(file, at + 10);
        g.base[p] = number_at(file, at + 14) + number_at(file, receiver + 2) + u;
    }
}

bool turn_round(const Memory &g, size_t first, size_t arrows, const int32_t *a, int32_t *b, uint16_t *pred) {
    std::memcpy(b, a, g.n * sizeof *a);
    bool raised = false;
    for (size_t e = first; e < arrows; ++e) {
        const int32_t offer = a[g.tail[e]] + g.amount[e];
        if (b[g.head[e]] < offer) {
            b[g.head[e]] = offer;
            pred[g.head[e]] = uint16_t(e);
            raised = true;
        }
    }
    return raised;
}

// Gives every register what its preds give it. Answers the first register whose walk back along them finds no end; n where all do.
size_t settle(const Memory &g, int32_t *row) {
    uint8_t settled[256] = {};
    for (size_t s = 0; s < g.n; ++s) {
        const size_t e = g.pred[s];
        if (e != kNone && settled[g.tail[e]]) { // one step back is all for most registers
            row[s] = row[g.tail[e]] + g.amount[e];
            settled[s] = 1;
            continue;
        }
        size_t v = s, steps = 0;
        int64_t sum = 0;
        while (!settled[v] && g.pred[v] != kNone) {
            if (steps++ > g.n) return s;
            sum += g.amount[g.pred[v]];
            v = g.tail[g.pred[v]];
        }
        int32_t time = int32_t((settled[v] ? row[v] : 0) + sum);
        for (v = s; !settled[v]; v = g.tail[g.pred[v]]) {
            row[v] = time;
            settled[v] = 1;
            if (g.pred[v] == kNone) break;
            time -= g.amount[g.pred[v]];
        }
    }
    return g.n;
}

// The lowest register of the circle of preds that v is on.
size_t lowest_around(const Memory &g, size_t v) {
    size_t lowest = v;
    for (size_t w = g.tail[g.pred[v]]; w != v; w = g.tail[g.pred[w]]) lowest = w < lowest ? w : lowest;
    return lowest;
}

// Lists the circle on which the walk back from s ends: as many steps as there are registers lead onto it.
size_t list_circle(Memory &g, size_t s) {
    for (size_t k = 0; k < g.n; ++k) s = g.tail[g.pred[s]];
    const size_t start = lowest_around(g, s);
    size_t entries = 0, v = start;
    do {
        ++entries;
        v = g.tail[g.pred[v]];
    } while (v != start);
    for (size_t k = entries; k-- > 0; v = g.tail[g.ring[k]]) g.ring[k] = g.pred[v];
    return entries;
}

void first_row(const Memory &g, int32_t *row, uint16_t *pred) {
    row[0] = 0, pred[0] = kNone;
    for (size_t v = 1; v < g.n; ++v) row[v] = g.amount[v - 1], pred[v] = uint16_t(v - 1);
}

// Relaxes from the row in g.a, which meets the arrows below `first`.
Relaxed relax(Memory &g, size_t first, size_t arrows) {
    ++counts.relaxations;
    int32_t *from = g.a, *to = g.b;
    for (uint64_t rounds = 1;; ++rounds, first = 0) {
        ++counts.rounds, counts.offers += arrows - first;
        if (!turn_round(g, first, arrows, from, to, g.pred)) return {to, 0, rounds};
        const size_t stray = settle(g, to);
        if (stray < g.n) return {to, list_circle(g, stray), rounds};
        std::swap(from, to);
    }
}

int64_t total(const Memory &g, size_t entries) {
    int64_t sum = 0;
    for (size_t j = 0; j < entries; ++j) sum += g.amount[g.ring[j]];
    return sum;
}

int32_t need(const Memory &g, int32_t period, size_t entries) {
    const int64_t over = total(g, entries);
    int64_t setups = 0;
    for (size_t j = 0; j < entries; ++j) setups += g.ring[j] >= g.fixed();
    return period + int32_t((over + setups - 1) / setups);
}

void at_period(Memory &g, int32_t period) {
    for (size_t p = 0; p < g.m; ++p) g.amount[g.fixed() + p] = g.base[p] - period;
}

// A loop of the heaviest setup arrows, in `ring`, that contradicts itself: how many entries it has, or none.
size_t guess(Memory &g) {
    for (size_t v = 0; v < g.n; ++v) g.pred[v] = kNone;
    for (size_t e = g.fixed(); e < g.fixed() + g.m; ++e) {
        const size_t v = g.head[e];
        if (g.pred[v] == kNone || g.amount[g.pred[v]] < g.amount[e]) g.pred[v] = uint16_t(e);
    }
    size_t v = g.n - 1;
    for (size_t k = 0; k <= g.n; ++k) {
        if (g.pred[v] == kNone) return 0;
        v = g.tail[g.pred[v]];
    }
    const size_t entries = list_circle(g, g.n - 1);
    return total(g, entries) > 0 ? entries : 0;
}

void put_entry(uint8_t *out, size_t at, const Memory &g, size_t e) {
    const size_t windows = g.n - 1;
    const int32_t kind = e < windows ? 2 : e < 2 * windows ? 3 : e < g.fixed() ? 1 : 0;
    const size_t first = kind == 2 ? 0 : kind == 3 ? windows : kind == 1 ? 2 * windows : g.fixed();
    out[at] = 'E', out[at + 1] = 'D';
    put_number(out, at + 2, kind);
    put_number(out, at + 6, int32_t(e - first) + (kind >= 2 ? 1 : 0));
}

void put_answer(uint8_t *out, const Memory &g, int32_t period, const int32_t *row, size_t latencies, size_t entries) {
    put_head(out, period, int32_t(latencies), int32_t(entries));
    for (size_t i = 0; i < latencies; ++i) put_latency(out, i, row[i]);
    for (size_t j = 0; j < entries; ++j) put_entry(out, 14 + 6 * latencies + 10 * j, g, g.ring[j]);
}

uint64_t climb(Memory &g, int32_t floor, int32_t ceiling, uint8_t *out) {
    at_period(g, floor);
    size_t kept = guess(g);
    if (floor >= ceiling) kept = 0;
    counts.climbs += kept > 0;
    for (int32_t period = kept ? std::min(need(g, floor, kept), ceiling) : floor;;) {
        at_period(g, period);
        std::memcpy(g.a, g.row, g.n * sizeof *g.a);
        std::memcpy(g.pred, g.preds, g.n * sizeof *g.pred);
        const Relaxed found = relax(g, g.passed, g.fixed() + g.m);
        if (!found.entries) {
            put_answer(out, g, period, found.row, g.n, kept);
            return 0;
        }
        kept = found.entries;
        period = need(g, period, kept);
        if (period > ceiling) {
            put_answer(out, g, 0, nullptr, 0, kept);
            return refusal(9);
        }
        ++counts.climbs;
    }
}

bool askable(const uint8_t *file, int32_t period, int32_t kind, int32_t number, int32_t tail, int32_t head) {
    if (!within(1, 10000000, period) || !within(-1000000, 1000000, tail) || !within(-1000000, 1000000, head)) return false;
    if (kind == 0 || kind == 1) return within(0, number_at(file, 6) - 1, number);
    return (kind == 2 || kind == 3) && within(1, number_at(file, 2) - 1, number);
}

int32_t slack(const uint8_t *file, int32_t period, int32_t kind, int32_t number, int32_t tail, int32_t head) {
    const size_t own = kHeader + kRecord * size_t(number);
    if (kind == 2) return head - number_at(file, own + 10);
    if (kind == 3) return number_at(file, own + 14) - tail;
    const size_t path = own + kRecord * size_t(number_at(file, 2));
    const int32_t from = number_at(file, path + 2), to = number_at(file, path + 6), u = number_at(file, 18);
    const size_t receiver = kHeader + kRecord * size_t(to);
    return kind == 0 ? head + period - (tail + number_at(file, path + 14) + number_at(file, receiver + 2) + u)
                     : head + number_at(file, path + 10) - (tail + number_at(file, receiver + 6) + hold_charge(from, to, u));
}

} // namespace

uint64_t plain_schedule(const uint8_t *file, size_t size, uint8_t *out, size_t room) {
    const uint64_t fault = refused(file, size, room);
    if (fault) return fault;
    Memory g;
    g.n = size_t(number_at(file, 2)), g.m = size_t(number_at(file, 6));
    fill(file, g);
    first_row(g, g.a, g.pred);
    const Relaxed free = relax(g, 0, g.fixed());
    if (free.entries) {
        put_answer(out, g, 0, nullptr, 0, free.entries);
        return refusal(8);
    }
    g.passed = free.rounds > kMany ? 0 : g.fixed();
    if (g.passed == 0) first_row(g, g.row, g.preds);
    else std::memcpy(g.row, free.row, g.n * sizeof *g.row), std::memcpy(g.preds, g.pred, g.n * sizeof *g.preds);
    return climb(g, number_at(file, 10), number_at(file, 14), out);
}

uint64_t plain_question(const uint8_t *file, size_t size, int32_t period, int32_t kind, int32_t number, int32_t tail, int32_t head) {
    const uint64_t fault = refused(file, size, SIZE_MAX);
    if (fault) return fault;
    if (!askable(file, period, kind, number, tail, head)) return refusal(10);
    return uint64_t(uint32_t(slack(file, period, kind, number, tail, head))) << 32;
}
