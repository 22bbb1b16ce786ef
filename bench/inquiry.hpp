// Rule questions about a network, and the turns that time them.
#pragma once
#include "turns.hpp"

using Question = uint64_t (*)(const uint8_t *file, size_t size, int32_t period, int32_t kind, int32_t number, int32_t tail, int32_t head);

struct Asked {
    int32_t period, kind, number, tail, head;
};

// A network file and what is asked of it.
struct Inquiry {
    File file;
    std::vector<Asked> asked;
};

// Eight rules of each kind, spread over all that the network has, at drawn periods and latencies.
Inquiry inquiry(const File &file);

// What must be refused: questions just out of range, then the file cut off or with a wrong bit in each of its parts. The network has two
// registers and a path, or more.
std::vector<Inquiry> to_be_refused(const File &file);

// The sets whose questions are timed. A question reads the file and solves nothing, so one shape stands for all that are drawn.
inline bool asked_of(const Set &set) { return set.shape == "pipeline" || set.shape == "real"; }

std::vector<Inquiry> inquiries_of(const Set &set);

inline uint64_t ask(Question question, const File &file, const Asked &asked) {
    return question(file.data(), file.size(), asked.period, asked.kind, asked.number, asked.tail, asked.head);
}

// Seconds for one question, all of them asked several times over.
double turn(Question question, const std::vector<Inquiry> &inquiries, int repeats);
