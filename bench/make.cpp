// Pipelines and dense networks are drawn around a hidden schedule, so that their hold rules and windows can be met and the period decides.
// Chains, rings, decoys and races hold one loop through every register: of setup rules with the host, without it, and beside heavier
// paths that mislead; and of hold rules whose amounts add up to -1, 0 or 1, where 1 means refusal 8. Stairs are many loops, each of which
// needs a little more than the one before. Paths that cannot bind fill the list, but not that of a bare chain or a bare race.
#include "make.hpp"

#include <algorithm>
#include <array>
#include <stdexcept>

namespace {

// SplitMix64: small, and the same everywhere.
struct Rng {
    uint64_t state;
    uint64_t word() {
        uint64_t z = state += 0x9e3779b97f4a7c15u;
        z = (z ^ z >> 30) * 0xbf58476d1ce4e5b9u;
        z = (z ^ z >> 27) * 0x94d049bb133111ebu;
        return z ^ z >> 31;
    }
    int between(int low, int high) { return low + int(word() % uint64_t(high - low + 1)); }
    template <class T> void shuffle(std::vector<T> &list) {
        for (size_t k = list.size(); k > 1; --k) std::swap(list[k - 1], list[size_t(word() % k)]);
    }
};

struct Draft {
    Rng &rng;
    int n;
    size_t paths_wanted;
    int u = 0;
    std::vector<std::array<int, 4>> registers{}, paths{};

    File file() const {
        File bytes{'N', 'W'};
        for (int x : {n, int(paths.size()), 1, 10000000, u}) put(bytes, x);
        for (const auto &record : registers) add(bytes, "RG", record);
        for (const auto &record : paths) add(bytes, "PT", record);
        return bytes;
    }
    static void put(File &bytes, int x) {
        for (int shift = 0; shift < 32; shift += 8) bytes.push_back(uint8_t(uint32_t(x) >> shift));
    }
    static void add(File &bytes, const char *mark, const std::array<int, 4> &record) {
        bytes.insert(bytes.end(), mark, mark + 2);
        for (int x : record) put(bytes, x);
    }
    int any() { return rng.between(0, n - 1); }
    bool full() const { return paths.size() >= paths_wanted; }
};

struct Scale {
    int latency, window, margin, u, slack, spread;
};

struct Planned : Draft {
    Scale scale;
    std::vector<int> hidden{};

    Planned(Rng &rng, int n, size_t wanted, Scale s) : Draft{rng, n, wanted}, scale(s) {
        u = rng.between(0, scale.u);
        for (int i = 0; i < n; ++i) {
            const int x = i ? rng.between(-scale.latency, scale.latency) : 0;
            const int below = i ? rng.between(0, scale.window) : 0, above = i ? rng.between(0, scale.window) : 0;
            hidden.push_back(x);
            const int setup = rng.between(-scale.margin / 4, scale.margin), hold = rng.between(-scale.margin / 4, scale.margin);
            registers.push_back({setup, hold, x - below, x + above});
        }
    }
    // A path whose hold rule the hidden schedule meets.
    void path(int from, int to) {
        const int asked = hidden[size_t(to)] + registers[size_t(to)][1] + u - hidden[size_t(from)];
        const int dmin = std::max(asked, 0) + rng.between(0, scale.slack);
        paths.push_back({from, to, dmin, dmin + rng.between(0, scale.spread)});
    }
};

File pipeline(Rng &rng, int n, size_t wanted) {
    Planned draft(rng, n, wanted, {200, 2000, 100, 50, 400, 3000});
    for (int stage = 0; stage < n; ++stage) draft.path(stage, (stage + 1) % n);
    while (!draft.full()) {
        const int from = draft.any();
        draft.path(from, rng.between(1, 100) <= 80 ? std::min(from + rng.between(1, 8), n - 1) : rng.between(0, from));
    }
    return draft.file();
}

File dense(Rng &rng, int n, size_t wanted) {
    Planned draft(rng, n, wanted, {1000, 3000, 200, 100, 2000, 20000});
    for (int from = 0; from < n; ++from)
        for (int to = 0; to < n && n * n <= 2048; ++to) draft.path(from, to);
    while (!draft.full()) draft.path(draft.any(), draft.any());
    return draft.file();
}

Draft open(Rng &rng, int n, size_t wanted) {
    Draft draft{rng, n, wanted};
    draft.registers.assign(size_t(n), {0, 0, -1000000, 1000000});
    draft.registers[0] = {0, 0, 0, 0};
    return draft;
}

// The registers of a loop: rising, falling or in no order. What is known of one reaches the next against the order of the paths.
std::vector<int> order(Rng &rng, int n, bool with_host) {
    std::vector<int> around;
    for (int i = with_host ? 0 : 1; i < n; ++i) around.push_back(i);
    const int way = rng.between(0, 2);
    if (way == 0) std::reverse(around.begin(), around.end());
    if (way == 1) rng.shuffle(around);
    return around;
}

File setup_loop(Rng &rng, int n, size_t wanted, bool with_host) {
    Draft draft = open(rng, n, wanted);
    const std::vector<int> around = order(rng, n, with_host);
    const int spread = std::array<int, 4>{0, 1, 5, 500}[size_t(rng.between(0, 3))];
    for (size_t k = 0; k < around.size(); ++k)
        draft.paths.push_back({around[k], around[(k + 1) % around.size()], 500000, 500000 + rng.between(0, spread)});
    while (!draft.full()) draft.paths.push_back({draft.any(), draft.any(), 400000, rng.between(400000, 450000)});
    if (rng.between(0, 1)) rng.shuffle(draft.paths);
    return draft.file();
}

// A ring, and beside it a register that has a heavier path to each on the ring and a light one back: the heaviest paths make a loop, but one
// that needs less than the ring does, and less than many others.
File decoy(Rng &rng, int n, size_t wanted) {
    Draft draft = open(rng, n, wanted);
    std::vector<int> around = order(rng, n, false);
    around.erase(std::find(around.begin(), around.end(), 1));
    for (size_t k = 0; k < around.size(); ++k)
        draft.paths.push_back({around[k], around[(k + 1) % around.size()], 500000, 500000 + rng.between(0, 500)});
    for (int to : around) draft.paths.push_back({1, to, 500000, rng.between(550000, 600000)});
    const auto any = [&] { return around[size_t(rng.between(0, int(around.size()) - 1))]; };
    draft.paths.push_back({any(), 1, 0, rng.between(0, 1000)});
    while (!draft.full()) draft.paths.push_back({any(), any(), 400000, rng.between(400000, 450000)});
    if (rng.between(0, 1)) rng.shuffle(draft.paths);
    return draft.file();
}

// An eighth of the registers have paths to themselves, each heavier than that of the register before. Other paths lead to these registers
// but none from them, so that the heaviest paths into the others show nothing of the stairs; and a search that takes the first loop it
// meets climbs them one by one.
File stairs(Rng &rng, int n, size_t wanted) {
    Draft draft = open(rng, n, wanted);
    const int steps = n / 8;
    for (int step = 1, delay = 500000; step <= steps; ++step, delay += rng.between(1, 500))
        draft.paths.push_back({step, step, 400000, delay});
    while (!draft.full()) draft.paths.push_back({rng.between(steps + 1, n - 1), draft.any(), 400000, rng.between(400000, 450000)});
    if (rng.between(0, 1)) rng.shuffle(draft.paths);
    return draft.file();
}

File race(Rng &rng, int n, size_t wanted) {
    Draft draft = open(rng, n, wanted);
    const std::vector<int> around = order(rng, n, rng.between(0, 1));
    int left = rng.between(-1, 1);
    for (size_t k = 0; k < around.size(); ++k) {
        const int to = around[(k + 1) % around.size()];
        const int amount = k + 1 == around.size() ? left : rng.between(-40, 40), dmin = rng.between(0, 3000);
        left -= amount;
        draft.registers[size_t(to)][1] = dmin + amount;
        draft.paths.push_back({around[k], to, dmin, dmin + rng.between(0, 2000)});
    }
    while (!draft.full()) {
        const int dmin = rng.between(900000, 1000000);
        draft.paths.push_back({draft.any(), draft.any(), dmin, rng.between(dmin, 1000000)});
    }
    if (rng.between(0, 1)) rng.shuffle(draft.paths);
    return draft.file();
}

} // namespace

const std::vector<std::string> &shapes() {
    static const std::vector<std::string> all{"pipeline", "dense", "chain", "race", "ring", "decoy", "stairs", "barechain", "barerace"};
    return all;
}

File make(const std::string &shape, int n, int paths, uint64_t seed) {
    Rng rng{seed};
    const size_t wanted = size_t(std::min(paths, 2048));
    if (shape == "pipeline") return pipeline(rng, n, wanted);
    if (shape == "dense") return dense(rng, n, wanted);
    if (shape == "chain") return setup_loop(rng, n, wanted, true);
    if (shape == "ring") return setup_loop(rng, n, wanted, false);
    if (shape == "decoy") return decoy(rng, n, wanted);
    if (shape == "stairs") return stairs(rng, n, wanted);
    if (shape == "race") return race(rng, n, wanted);
    if (shape == "barechain") return setup_loop(rng, n, 0, true);
    if (shape == "barerace") return race(rng, n, 0);
    throw std::invalid_argument("no shape " + shape);
}
