// Times the module's rule question beside the plain one. Both judge the whole file and then give the slack of one rule. Before anything is
// timed, what they return must be the same integer, also where a file or a question is refused.
#include "question.hpp"

#include <cmath>
#include <cstdio>
#include <cstdlib>

#include <skew.h>
#include "inquiry.hpp"
#include "plain.hpp"

namespace {

constexpr double kBudget = 0.25; // seconds for each row, at the least 3 turns

size_t yes = 0, no = 0, refused_ones = 0;

void check(const Inquiry &about, bool refuse) {
    for (const Asked &asked : about.asked) {
        const uint64_t result = ask(skew_question, about.file, asked), other = ask(plain_question, about.file, asked);
        if (result != other || (skew_number(result) != 0) != refuse) {
            std::printf("rule %d %d: the plain question differs from the module's, or is not refused as it should be (number %u and %u, "
                        "slack %d and %d)\n",
                asked.kind, asked.number, skew_number(other), skew_number(result), skew_slack(other), skew_slack(result));
            std::exit(1);
        }
        ++(refuse ? refused_ones : skew_yes(result) ? yes : no);
    }
}

// Nanoseconds for one question: the module's, then the plain one's.
std::pair<double, double> measure(const std::vector<Inquiry> &inquiries) {
    const int repeats = std::max(1, int(0.0002 / (turn(plain_question, inquiries, 1) * 32 * double(inquiries.size()))));
    double module = 1e9, plain = 1e9;
    const double start = now();
    for (int t = 0; t < 3 || now() - start < kBudget; ++t) {
        module = std::min(module, 1e9 * turn(skew_question, inquiries, repeats));
        plain = std::min(plain, 1e9 * turn(plain_question, inquiries, repeats));
    }
    return {module, plain};
}

} // namespace

void print_questions(const std::vector<Set> &sets) {
    std::printf("\nthe rule question; nanoseconds for one\n%-9s %4s %5s %11s %8s\n", "shape", "regs", "paths", "module ns", "plain");
    double total = 0, plain_total = 0, logs = 0;
    int rows = 0;
    for (const Set &set : sets) {
        if (!asked_of(set)) continue;
        const std::vector<Inquiry> inquiries = inquiries_of(set);
        for (const Inquiry &about : inquiries) check(about, false);
        for (const File &file : set.files)
            for (const Inquiry &about : to_be_refused(file)) check(about, true);
        const auto [module, plain] = measure(inquiries);
        std::printf("%-9s %4d %5d %11.0f %8.2f\n", set.shape.c_str(), set.n, set.m, module, module / plain);
        std::fflush(stdout);
        total += module, plain_total += plain, logs += std::log(module / plain), ++rows;
    }
    std::printf("%-20s %11.0f %8.2f\n%-20s %11s %8.2f\n", "total of questions", total, total / plain_total, "  geometric mean", "",
        std::exp(logs / rows));
    std::printf("%zu questions are answered yes, %zu no, and %zu refused; both return the same integer for each\n", yes, no, refused_ones);
}
