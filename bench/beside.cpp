// Times two builds of the module's library beside each other, on the same networks, in one run.
//
// Each is a shared library of its own, so that both can export the same names; shared libraries begin at the start of a page, so that code
// that is the same in both lies alike in memory too. The clock is read around a few calls for one network, so that other programs on the
// machine seldom come between. The builds take turns at each network, and each comes as often as the other after itself, after the other
// and first. A build's time for a network is that of its fastest turn, and a row of the table adds up its networks. Numbers,
// places, periods and latencies are compared before anything is timed. So are the answers to rule questions, which have their own table.
#include <dlfcn.h>

#include <cmath>
#include <cstdio>
#include <cstdlib>

#include <skew.h>
#include "inquiry.hpp"
#include "stack.hpp"

namespace {

struct Build {
    Schedule schedule;
    Question question;
    size_t stack = 0; // the most that scheduling used
};

struct Times {
    double base = 1e9, other = 1e9; // nanoseconds for one network
    double ratio() const { return other / base; }
};

struct Sum {
    Times total{0, 0};
    double logs = 0, least = 1e9, most = 0;
    int count = 0;
    void add(const Times &times) {
        total.base += times.base, total.other += times.other;
        logs += std::log(times.ratio());
        least = std::min(least, times.ratio()), most = std::max(most, times.ratio());
        ++count;
    }
};

size_t networks = 0, alike = 0, questions = 0;

Build loaded(const char *path) {
    void *library = dlopen(path, RTLD_NOW | RTLD_LOCAL);
    void *schedule = library ? dlsym(library, "skew_schedule") : nullptr;
    void *question = schedule ? dlsym(library, "skew_question") : nullptr;
    if (!question) {
        std::printf("%s: %s\n", path, dlerror());
        std::exit(1);
    }
    return {reinterpret_cast<Schedule>(schedule), reinterpret_cast<Question>(question)};
}

void check(Build &base, Build &other, const Set &set) {
    for (const File &file : set.files) {
        std::vector<uint8_t> out(8192, 0xee), other_out(8192, 0xee);
        const uint64_t result = base.schedule(file.data(), file.size(), out.data(), out.size());
        const uint64_t other_result = other.schedule(file.data(), file.size(), other_out.data(), other_out.size());
        if (!agree(result, out, other_result, other_out, size_t(set.n))) {
            std::printf("%s %d: the builds differ (number %u and %u, period %d and %d)\n", set.shape.c_str(), set.n, uint32_t(result),
                uint32_t(other_result), number_at(&out[2], 0), number_at(&other_out[2], 0));
            std::exit(1);
        }
        ++networks, alike += out == other_out;
        for (Build *build : {&base, &other}) build->stack = std::max(build->stack, stack_used(build->schedule, file));
    }
}

// A build from before the slack answers a question by a yes or no: for a rule that is met exactly it returns the top bit, which is its yes,
// where one that tells the slack returns 0.
bool tells_slack(const Build &build, const File &file) {
    return ask(build.question, file, {1, 2, 1, 0, number_at(file.data(), kHeader + kRecord + 10)}) == 0;
}

bool says_yes(uint64_t result, bool slack) { return slack ? skew_yes(result) : result >> 63; }

// The hold rule of a path from a register to itself. A build from before request 2026-02 charges it u, so answers about it are not compared.
bool self_hold(const File &file, const Asked &asked) {
    if (asked.kind != 1 || !within(0, number_at(file.data(), 6) - 1, asked.number)) return false;
    const size_t path = kHeader + kRecord * size_t(number_at(file.data(), 2) + asked.number);
    return number_at(file.data(), path + 2) == number_at(file.data(), path + 6);
}

// Answers of two builds that tell the slack, or that do not, must be the same integer, and so must refusals. Of a slack and a yes or no the
// yes is compared.
void check(const Build &base, const Build &other, const Inquiry &about, bool slack, bool other_slack) {
    for (const Asked &asked : about.asked) {
        const uint64_t result = ask(base.question, about.file, asked), other_result = ask(other.question, about.file, asked);
        const bool comparable = slack == other_slack || skew_number(result) != 0 || skew_number(other_result) != 0;
        if (skew_number(result) == 0 && skew_number(other_result) == 0 && self_hold(about.file, asked)) continue;
        if (comparable ? result != other_result : says_yes(result, slack) != says_yes(other_result, other_slack)) {
            std::printf("rule %d %d: the builds' answers differ (%016llx and %016llx)\n", asked.kind, asked.number,
                static_cast<unsigned long long>(result), static_cast<unsigned long long>(other_result));
            std::exit(1);
        }
        ++questions;
    }
}

// What a build does with a network: it schedules it, or answers the questions about it. A turn is in seconds for one call.
double turn_of(const Build &build, const std::vector<File> &files, int repeats) { return turn(build.schedule, files, repeats); }
double turn_of(const Build &build, const std::vector<Inquiry> &inquiries, int repeats) { return turn(build.question, inquiries, repeats); }
double calls_in(const File &) { return 1; }
double calls_in(const Inquiry &about) { return double(about.asked.size()); }

// Repeats for one network that take 20 microseconds or more.
template <class Work> int repeats_of(const Build &build, const Work &work) {
    return std::max(1, int(0.00002 / (turn_of(build, std::vector<Work>{work}, 1) * calls_in(work))) + 1);
}

// Four turns at each network, as ABBA and the next time as BAAB, until the seconds are over, at the least four times.
template <class Work> Times measure(const Build &base, const Build &other, const std::vector<Work> &works, double seconds) {
    std::vector<Times> each(works.size());
    std::vector<std::vector<Work>> alone;
    std::vector<int> repeats;
    for (const Work &work : works) alone.push_back({work}), repeats.push_back(repeats_of(base, work));
    const double start = now();
    for (int t = 0; t < 4 || t % 2 || now() - start < seconds; ++t)
        for (size_t k = 0; k < alone.size(); ++k)
            for (const bool outer : {true, false, false, true}) {
                const bool is_base = outer == (t % 2 == 0);
                double &best = is_base ? each[k].base : each[k].other;
                best = std::min(best, 1e9 * turn_of(is_base ? base : other, alone[k], repeats[k]));
            }
    Times sum{0, 0};
    for (const Times &times : each) sum.base += times.base, sum.other += times.other;
    return {sum.base / double(each.size()), sum.other / double(each.size())};
}

void print_sum(const std::string &what, const Sum &sum) {
    std::printf("total %-9s %11.0f %11.0f %7.3f   mean %5.3f, from %5.3f to %5.3f\n", what.c_str(), sum.total.base, sum.total.other,
        sum.total.ratio(), std::exp(sum.logs / sum.count), sum.least, sum.most);
}

void print_row(const Set &set, const Times &times) {
    std::printf("%-9s %5d %5d %11.0f %11.0f %7.3f\n", set.shape.c_str(), set.n, set.m, times.base, times.other, times.ratio());
    std::fflush(stdout);
}

void print_questions(const Build &base, const Build &other, const std::vector<Set> &sets, double seconds) {
    const bool slack = tells_slack(base, sets[0].files[0]), other_slack = tells_slack(other, sets[0].files[0]);
    std::printf("\nthe rule question; nanoseconds for one%s\n",
        slack == other_slack ? "" : ". One build tells the slack and the other a yes or no: the yes is compared");
    Sum sum;
    for (const Set &set : sets) {
        if (!asked_of(set)) continue;
        const std::vector<Inquiry> inquiries = inquiries_of(set);
        for (const Inquiry &about : inquiries) check(base, other, about, slack, other_slack);
        for (const Inquiry &about : to_be_refused(set.files[0])) check(base, other, about, slack, other_slack);
        const Times times = measure(base, other, inquiries, seconds);
        print_row(set, times);
        sum.add(times);
    }
    print_sum("questions", sum);
    std::printf("%zu questions, all answered alike\n", questions);
}

} // namespace

// The words are the two libraries, a seed, the seconds for each row of the table, and the folder of the real networks' files.
int main(int count, char **words) {
    if (count < 5) return 2;
    Build base = loaded(words[1]), other = loaded(words[2]);
    const uint64_t seed = std::strtoull(words[3], nullptr, 10);
    const double seconds = std::strtod(words[4], nullptr);
    std::printf("seed %llu, %.2f s for each row; nanoseconds for one network, and new / base\n\n%-9s %5s %5s %11s %11s %7s\n",
        static_cast<unsigned long long>(seed), seconds, "shape", "regs", "paths", "base ns", "new ns", "ratio");
    std::vector<Set> sets = all_drawn(seed);
    for (Set &set : real_sets(count > 5 ? words[5] : "")) sets.push_back(std::move(set));
    std::vector<std::string> names = shapes();
    names.push_back("real");
    std::vector<Sum> sums(names.size());
    Sum generated, all;
    for (const Set &set : sets) {
        check(base, other, set);
        const Times times = measure(base, other, set.files, seconds);
        print_row(set, times);
        sums[size_t(std::find(names.begin(), names.end(), set.shape) - names.begin())].add(times);
        if (set.shape != "real") generated.add(times);
        all.add(times);
    }
    std::printf("\n");
    for (size_t k = 0; k < names.size(); ++k)
        if (sums[k].count) print_sum(names[k], sums[k]);
    print_sum("generated", generated);
    print_sum("of all", all);
    print_questions(base, other, sets, seconds);
    std::printf("\n%zu networks; on %zu both outputs are the same byte for byte. Stack: %zu and %zu bytes\n", networks, alike, base.stack,
        other.stack);
}
