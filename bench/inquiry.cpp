#include "inquiry.hpp"

#include <random>

Inquiry inquiry(const File &file) {
    const int32_t n = number_at(file.data(), 2), m = number_at(file.data(), 6);
    std::mt19937 draw(uint32_t(file.size()));
    const auto between = [&](int32_t low, int32_t high) { return low + int32_t(draw() % uint32_t(high - low + 1)); };
    std::vector<Asked> asked;
    for (int32_t kind = 0; kind < 4; ++kind) {
        const int32_t first = kind < 2 ? 0 : 1, rules = kind < 2 ? m : n - 1;
        for (int32_t k = 0; k < 8 && rules > 0; ++k)
            asked.push_back({between(1, 10000000), kind, first + k * rules / 8, between(-1000000, 1000000), between(-1000000, 1000000)});
    }
    return {file, asked};
}

std::vector<Inquiry> to_be_refused(const File &file) {
    const int32_t n = number_at(file.data(), 2), m = number_at(file.data(), 6);
    const Asked right{1, 0, 0, 0, 0};
    std::vector<Inquiry> list{{file,
        {{0, 0, 0, 0, 0}, {10000001, 0, 0, 0, 0}, {1, -1, 0, 0, 0}, {1, 4, 1, 0, 0}, {1, 0, -1, 0, 0}, {1, 0, m, 0, 0}, {1, 1, m, 0, 0},
            {1, 2, 0, 0, 0}, {1, 3, 0, 0, 0}, {1, 2, n, 0, 0}, {1, 3, n, 0, 0}, {1, 2, 1, 1000001, 0}, {1, 3, 1, 0, -1000001}}}};
    // Marks of the header, of register 1 and of path 0, and the top bytes of n, m, floor and u.
    for (const size_t at : {size_t(0), kHeader + kRecord, kHeader + kRecord * size_t(n), size_t(5), size_t(9), size_t(13), size_t(21)}) {
        list.push_back({file, {right}});
        list.back().file[at] ^= 0x80;
    }
    list.push_back({File(file.begin(), file.end() - 1), {right}});
    return list;
}

std::vector<Inquiry> inquiries_of(const Set &set) {
    std::vector<Inquiry> list;
    for (const File &file : set.files) list.push_back(inquiry(file));
    return list;
}

double turn(Question question, const std::vector<Inquiry> &inquiries, int repeats) {
    static volatile uint64_t sink;
    size_t count = 0;
    const double start = now();
    for (int r = 0; r < repeats; ++r)
        for (const Inquiry &about : inquiries) {
            for (const Asked &asked : about.asked) sink = sink + ask(question, about.file, asked);
            count += about.asked.size();
        }
    return (now() - start) / double(count);
}
