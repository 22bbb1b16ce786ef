// The programs that the module is timed beside. The libraries' give number, period and latencies; they need not show a loop.
#pragma once
#include "network.hpp"

extern "C" uint64_t second_schedule(const uint8_t *file, size_t size, uint8_t *out, size_t room);
uint64_t lemon_schedule(const uint8_t *file, size_t size, uint8_t *out, size_t room);
uint64_t lemon_by_rounds(const uint8_t *file, size_t size, uint8_t *out, size_t room);
uint64_t boost_schedule(const uint8_t *file, size_t size, uint8_t *out, size_t room);
