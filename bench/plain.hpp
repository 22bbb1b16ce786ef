// A plain C++ program of the module's design, and what it counts on its way.
#pragma once
#include <cstddef>
#include <cstdint>

struct Counts {
    uint64_t rounds = 0;      // passes over all arrows, the last one of each relaxation included
    uint64_t relaxations = 0; // the one without setup rules and one for each period tried
    uint64_t climbs = 0;      // times that a loop's need became the next period
    uint64_t offers = 0;      // arrows looked at, over all rounds
};

extern Counts counts; // of all calls since it was last cleared

uint64_t plain_schedule(const uint8_t *file, size_t size, uint8_t *out, size_t room);
uint64_t plain_question(const uint8_t *file, size_t size, int32_t period, int32_t kind, int32_t number, int32_t tail, int32_t head);
