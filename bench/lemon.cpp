// LEMON's Bellman-Ford in the place of the module's relaxation, used in two ways.
//
// As it comes: checkedStart says whether a period has a schedule, and the period is bisected for. It finds a contradiction only after as
// many rounds as there are registers; with it a climb, which meets contradictions alone, is slower than a bisection.
//
// By rounds: a circle among LEMON's preds is looked for after each of its rounds, and its need is the next period, as in the module.
#include <lemon/bellman_ford.h>
#include <lemon/static_graph.h>

#include "rivals.hpp"

namespace {

using Graph = lemon::StaticDigraph;
using Lengths = Graph::ArcMap<int64_t>;
using Solver = lemon::BellmanFord<Graph, Lengths>;
using Circle = lemon::Path<Graph>;

// Above the need of any loop, so at it only setup-free loops contradict themselves.
constexpr int64_t kForever = int64_t(1) << 32;

// Sorted by tail, as a StaticDigraph wants its arcs: arc k of the graph is then arrow k of the list.
std::vector<Arrow> by_tail(const std::vector<Arrow> &arrows, size_t n) {
    std::vector<size_t> next(n + 1, 0);
    for (const Arrow &arrow : arrows) ++next[size_t(arrow.tail) + 1];
    for (size_t i = 0; i < n; ++i) next[i + 1] += next[i];
    std::vector<Arrow> sorted(arrows.size());
    for (const Arrow &arrow : arrows) sorted[next[size_t(arrow.tail)]++] = arrow;
    return sorted;
}

struct Network {
    std::vector<Arrow> arrows;
    Graph graph;
    Lengths lengths;

    Network(const uint8_t *file, size_t n) : arrows(by_tail(arrows_of(file), n)), lengths(graph) {
        std::vector<std::pair<int, int>> ends;
        ends.reserve(arrows.size());
        for (const Arrow &arrow : arrows) ends.emplace_back(arrow.tail, arrow.head);
        graph.build(int(n), ends.begin(), ends.end());
    }

    void at_period(int64_t period) {
        for (size_t k = 0; k < arrows.size(); ++k) lengths[graph.arc(int(k))] = -arrows[k].amount(period);
    }

    void put(uint8_t *out, int64_t period, const Solver &solver) const {
        put_head(out, int32_t(period), graph.nodeNum(), 0);
        for (int i = 0; i < graph.nodeNum(); ++i) put_latency(out, size_t(i), int32_t(-solver.dist(graph.node(i))));
    }

    // Writes the latencies where the period has a schedule.
    bool has_schedule(int64_t period, uint8_t *out) {
        at_period(period);
        Solver solver(graph, lengths);
        solver.init();
        solver.addSource(graph.node(0));
        if (!solver.checkedStart()) return false;
        put(out, period, solver);
        return true;
    }

    Circle circle_at(int64_t period, uint8_t *out) {
        at_period(period);
        Solver solver(graph, lengths);
        solver.init();
        solver.addSource(graph.node(0));
        Circle circle;
        while (circle.empty() && !solver.processNextWeakRound()) circle = solver.negativeCycle();
        if (circle.empty()) put(out, period, solver);
        return circle;
    }

    // The need of a loop; -1 where it has no setup rule and so no period helps.
    int64_t need(const Circle &circle) const {
        int64_t sum = 0, setups = 0;
        for (Circle::ArcIt arc(circle); arc != lemon::INVALID; ++arc) {
            const Arrow &arrow = arrows[size_t(graph.index(arc))];
            sum += arrow.fixed, setups += arrow.setup;
        }
        return setups ? rounded_up(sum, setups) : -1;
    }
};

} // namespace

uint64_t lemon_schedule(const uint8_t *file, size_t size, uint8_t *out, size_t room) {
    const uint64_t fault = refused(file, size, room);
    if (fault) return fault;
    Network network(file, size_t(number_at(file, 2)));
    int64_t barred = number_at(file, 10) - 1, open = number_at(file, 14);
    if (!network.has_schedule(open, out)) return network.has_schedule(kForever, out) ? refusal(9) : refusal(8);
    while (open - barred > 1) {
        const int64_t middle = barred + (open - barred) / 2;
        // The last period with a schedule is the last one written.
        (network.has_schedule(middle, out) ? open : barred) = middle;
    }
    return 0;
}

// Past the ceiling the climb goes on, to tell refusal 9 from refusal 8.
uint64_t lemon_by_rounds(const uint8_t *file, size_t size, uint8_t *out, size_t room) {
    const uint64_t fault = refused(file, size, room);
    if (fault) return fault;
    Network network(file, size_t(number_at(file, 2)));
    for (int64_t period = number_at(file, 10);;) {
        const Circle circle = network.circle_at(period, out);
        if (circle.empty()) return period > number_at(file, 14) ? refusal(9) : 0;
        period = network.need(circle);
        if (period < 0) return refusal(8);
    }
}
