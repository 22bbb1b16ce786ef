// Boost's Howard cycle ratio for the period, then Boost's Bellman-Ford for the latencies.
//
// Howard's method divides by the setup rules around a loop, so a loop without any would divide by 0. Each other rule therefore counts as a
// very small part of a setup rule; the exact need is then taken from the rules of the loop that Howard's method found. Since the parts blur
// it a little, and since Boost stops it after 100 turns, Bellman-Ford has the last word: where it still finds a contradiction, the
// period is bisected for.
#include <boost/graph/adjacency_list.hpp>
#include <boost/graph/bellman_ford_shortest_paths.hpp>
#include <boost/graph/howard_cycle_ratio.hpp>

#include "rivals.hpp"

namespace {

// So small that a setup-free loop contradicting itself by 1 shows a ratio above every ceiling: 1 / (256 * kPart) > 10,000,000.
constexpr double kPart = 1e-10;
// Above the need of any loop, so at it only setup-free loops contradict themselves.
constexpr int64_t kForever = int64_t(1) << 32;

using Graph = boost::adjacency_list<boost::vecS, boost::vecS, boost::directedS, boost::no_property,
    boost::property<boost::edge_weight_t, double,
        boost::property<boost::edge_weight2_t, double,
            boost::property<boost::edge_index_t, size_t, boost::property<boost::edge_capacity_t, int64_t>>>>>;
using Edge = boost::graph_traits<Graph>::edge_descriptor;

struct Network {
    std::vector<Arrow> arrows;
    Graph graph;
    std::vector<int64_t> distance;

    Network(const uint8_t *file, size_t n) : arrows(arrows_of(file)), graph(n), distance(n) {
        for (size_t k = 0; k < arrows.size(); ++k) {
            const Edge edge = boost::add_edge(size_t(arrows[k].tail), size_t(arrows[k].head), graph).first;
            boost::put(boost::edge_weight, graph, edge, double(arrows[k].fixed));
            boost::put(boost::edge_weight2, graph, edge, arrows[k].setup ? 1.0 : kPart);
            boost::put(boost::edge_index, graph, edge, k);
        }
    }

    // The need of the loop with the greatest ratio; kForever where it contradicts itself at every period, 0 where there is no loop.
    int64_t greatest_need() {
        std::vector<Edge> loop;
        boost::maximum_cycle_ratio(graph, boost::get(boost::vertex_index, graph), boost::get(boost::edge_weight, graph),
            boost::get(boost::edge_weight2, graph), &loop);
        int64_t sum = 0, setups = 0;
        for (const Edge &edge : loop) {
            const Arrow &arrow = arrows[boost::get(boost::edge_index, graph, edge)];
            sum += arrow.fixed, setups += arrow.setup;
        }
        if (!setups) return sum > 0 ? kForever : 0;
        return rounded_up(sum, setups);
    }

    bool has_schedule(int64_t period) {
        const auto length = boost::get(boost::edge_capacity, graph);
        const auto edges = boost::edges(graph);
        for (auto edge = edges.first; edge != edges.second; ++edge)
            length[*edge] = -arrows[boost::get(boost::edge_index, graph, *edge)].amount(period);
        return boost::bellman_ford_shortest_paths(graph, distance.size(),
            boost::weight_map(length).distance_map(distance.data()).root_vertex(size_t(0)));
    }

    // The smallest period with a schedule, given one below it and one with a schedule; leaves the latencies in `distance`.
    int64_t bisected(int64_t barred, int64_t open) {
        while (open - barred > 1) {
            const int64_t middle = barred + (open - barred) / 2;
            (has_schedule(middle) ? open : barred) = middle;
        }
        has_schedule(open);
        return open;
    }
};

} // namespace

uint64_t boost_schedule(const uint8_t *file, size_t size, uint8_t *out, size_t room) {
    const uint64_t fault = refused(file, size, room);
    if (fault) return fault;
    const size_t n = size_t(number_at(file, 2));
    const int64_t floor = number_at(file, 10), ceiling = number_at(file, 14);
    Network network(file, n);
    const int64_t need = network.greatest_need();
    if (need == kForever) return refusal(8);
    int64_t period = std::max(floor, need);
    if (period > ceiling) return network.has_schedule(kForever) ? refusal(9) : refusal(8);
    if (!network.has_schedule(period)) {
        if (!network.has_schedule(ceiling)) return network.has_schedule(kForever) ? refusal(9) : refusal(8);
        period = network.bisected(period, ceiling);
    }
    put_head(out, int32_t(period), int32_t(n), 0);
    for (size_t i = 0; i < n; ++i) put_latency(out, i, int32_t(-network.distance[i]));
    return 0;
}
