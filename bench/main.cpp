// Times the module's whole call beside the other programs, on the same networks, in one run.
//
// Each program in turn solves all networks of a shape and size; this is repeated, and a program's time is that of its fastest turn. Turns
// of different programs alternate, so that a slow spell of the machine meets them all. Outputs are checked before anything is timed.
#include <cmath>
#include <cstdio>
#include <cstdlib>

#include <skew.h>
#include "plain.hpp"
#include "question.hpp"
#include "rivals.hpp"
#include "stack.hpp"
#include "turns.hpp"

namespace {

struct Program {
    const char *name;
    Schedule schedule;
};

// The module first: all others are held to it.
const std::vector<Program> programs{
    {"module", skew_schedule},
    {"plain", plain_schedule},
#ifdef WITH_SECOND
    {"second", second_schedule},
#endif
#ifdef WITH_LEMON
    {"LEMON", lemon_schedule},
    {"LEMON-r", lemon_by_rounds},
#endif
#ifdef WITH_BOOST
    {"Boost", boost_schedule},
#endif
};

constexpr double kBudget = 0.25; // seconds for each cell of the table, at the least 3 turns

struct Cell {
    std::string shape;
    int n, m;
    size_t files;
    std::vector<double> ns; // for one network, by program
    Counts counts;
    size_t stack = 0;
};

std::vector<Cell> cells;
size_t networks = 0, answered = 0, alike = 0;

// Number, period and latencies must be the module's. Of the plain program, which takes the same steps, the loop is compared too.
void check(const File &file, const std::string &what) {
    std::vector<uint8_t> first(8192, 0xee);
    const uint64_t result = skew_schedule(file.data(), file.size(), first.data(), first.size());
    const size_t n = size_t(number_at(file.data(), 2));
    for (size_t k = 1; k < programs.size(); ++k) {
        std::vector<uint8_t> out(8192, 0xee);
        const uint64_t other = programs[k].schedule(file.data(), file.size(), out.data(), out.size());
        if (!agree(result, first, other, out, n)) {
            std::printf("%s: %s differs from the module (number %u and %u, period %d and %d)\n", what.c_str(), programs[k].name,
                skew_number(other), skew_number(result), number_at(&out[2], 0), number_at(&first[2], 0));
            std::exit(1);
        }
        if (k == 1) alike += out == first;
    }
    ++networks, answered += result == 0;
}

Cell measure(const Set &set) {
    const std::vector<File> &files = set.files;
    Cell cell{set.shape, set.n, set.m, files.size(), std::vector<double>(programs.size(), 1e9), {}, 0};
    for (const File &file : files) {
        check(file, set.shape + " " + std::to_string(set.n));
        cell.stack = std::max(cell.stack, stack_used(skew_schedule, file));
    }
    counts = Counts{};
    turn(plain_schedule, files, 1);
    cell.counts = counts;
    std::vector<int> repeats;
    for (const Program &program : programs) repeats.push_back(repeats_for(program.schedule, files));
    const double start = now();
    for (int t = 0; t < 3 || now() - start < kBudget; ++t)
        for (size_t k = 0; k < programs.size(); ++k)
            cell.ns[k] = std::min(cell.ns[k], 1e9 * turn(programs[k].schedule, files, repeats[k]));
    return cell;
}

void print_heading() {
    std::printf("%-9s %4s %5s %11s", "shape", "regs", "paths", "module ns");
    for (size_t k = 1; k < programs.size(); ++k) std::printf(" %8s", programs[k].name);
    std::printf(" %7s %7s %10s %8s\n", "rounds", "climbs", "ns/offer", "stack");
}

// Each program's time as a multiple of the module's; of the plain one the other way round, since it is the mark to come near.
double ratio(const std::vector<double> &ns, size_t k) { return k == 1 ? ns[0] / ns[1] : ns[k] / ns[0]; }

void print_cell(const Cell &cell) {
    std::printf("%-9s %4d %5d %11.0f", cell.shape.c_str(), cell.n, cell.m, cell.ns[0]);
    for (size_t k = 1; k < programs.size(); ++k) std::printf(" %8.2f", ratio(cell.ns, k));
    std::printf(" %7.1f %7.1f %10.2f %8zu\n", double(cell.counts.rounds) / double(cell.files),
        double(cell.counts.climbs) / double(cell.files), cell.ns[0] * double(cell.files) / double(cell.counts.offers), cell.stack);
}

void print_totals(const std::vector<Cell> &list, const char *what) {
    std::vector<double> total(programs.size(), 0), logs(programs.size(), 0);
    for (const Cell &cell : list)
        for (size_t k = 0; k < programs.size(); ++k) total[k] += cell.ns[k], logs[k] += std::log(ratio(cell.ns, k));
    std::printf("%-20s %11.0f", (std::string("total ") + what).c_str(), total[0]);
    for (size_t k = 1; k < programs.size(); ++k) std::printf(" %8.2f", ratio(total, k));
    std::printf("\n%-20s %11s", "  geometric mean", "");
    for (size_t k = 1; k < programs.size(); ++k) std::printf(" %8.2f", std::exp(logs[k] / double(list.size())));
    std::printf("\n");
}

// The exponent of growth between two cells: time as registers, or paths, to this power.
double growth(double from, double to, double times) { return std::log(to / from) / std::log(times); }

std::vector<Cell> of_shape(const std::string &shape) {
    std::vector<Cell> some;
    std::copy_if(cells.begin(), cells.end(), std::back_inserter(some), [&](const Cell &c) { return c.shape == shape; });
    return some;
}

void print_growth() {
    std::printf("\ngrowth from the smallest to the greatest size, as a power of registers\n%-9s %6s %6s %10s\n", "shape", "time",
        "rounds", "time/round");
    for (const std::string &shape : shapes()) {
        const std::vector<Cell> some = of_shape(shape);
        const Cell &a = some.front(), &z = some.back();
        const double times = double(z.n) / a.n;
        const double time = growth(a.ns[0], z.ns[0], times);
        const double rounds = growth(double(a.counts.rounds), double(z.counts.rounds), times);
        std::printf("%-9s %6.2f %6.2f %10.2f\n", shape.c_str(), time, rounds, time - rounds);
    }
}

// Registers held at 256, paths doubled.
void print_paths(uint64_t seed) {
    std::printf("\nby paths, at 256 registers\n");
    print_heading();
    for (const char *shape : {"pipeline", "chain"})
        for (int m : {256, 512, 1024, 2048}) print_cell(measure(drawn(shape, 256, m, seed)));
}

} // namespace

// The words are a seed and the folder of the real networks' files.
int main(int count, char **words) {
    const uint64_t seed = count > 1 ? std::strtoull(words[1], nullptr, 10) : 1;
    std::printf("seed %llu. Under plain: module / plain. Under the others: theirs / module. LEMON-r looks for a circle after each of\n"
                "LEMON's rounds. Rounds and climbs are means for one network; an offer is one arrow looked at in one round. Of real\n"
                "circuits each row is one circuit.\n\n",
        static_cast<unsigned long long>(seed));
    print_heading();
    std::vector<Set> sets = all_drawn(seed);
    const size_t generated = sets.size();
    for (Set &set : real_sets(count > 2 ? words[2] : "")) sets.push_back(std::move(set));
    for (const Set &set : sets) {
        cells.push_back(measure(set));
        print_cell(cells.back());
        std::fflush(stdout);
    }
    std::printf("\n");
    for (const std::string &shape : shapes()) print_totals(of_shape(shape), shape.c_str());
    print_totals({cells.begin(), cells.begin() + std::ptrdiff_t(generated)}, "generated");
    if (generated < cells.size()) print_totals(of_shape("real"), "real");
    print_totals(cells, "of all");
    print_growth();
    print_paths(seed);
    print_questions(sets);
    std::printf("\n%zu networks, %zu of them answered; on %zu the plain program's output is the module's byte for byte\n", networks,
        answered, alike);
}
