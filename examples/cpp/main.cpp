// Schedules a counter of two bits, whose registers have names, and then the same counter with too low a ceiling, which is refused.
#include <cstdint>
#include <iostream>
#include <string>
#include <vector>

#include "skew.h"

namespace {

struct Register {
    std::string name;
    std::int32_t setup, hold, low, high;
};

struct Path {
    std::int32_t from, to, dmin, dmax;
};

struct Network {
    std::int32_t floor, ceiling, u;
    std::vector<Register> registers;
    std::vector<Path> paths;
};

// Network T7 of docs/RULES.md. Each bit toggles, which is a path from a register to itself, and bit 0 carries into bit 1.
Network counter(std::int32_t ceiling) {
    const std::vector<Register> registers{{"host", 0, 0, 0, 0}, {"bit 0", 2, 2, -10, 10}, {"bit 1", 2, 2, -10, 10}};
    return {1, ceiling, 3, registers, {{1, 1, 2, 5}, {1, 2, 4, 9}, {2, 2, 3, 6}}};
}

std::vector<std::uint8_t> file_of(const Network &network) {
    const std::size_t n = network.registers.size(), m = network.paths.size();
    std::vector<std::uint8_t> file(skew_file_size(n, m));
    skew_put_header(file.data(), n, m, network.floor, network.ceiling, network.u);
    for (std::size_t i = 0; i < n; ++i) {
        const Register &r = network.registers[i];
        skew_put_register(file.data(), i, r.setup, r.hold, r.low, r.high);
    }
    for (std::size_t p = 0; p < m; ++p) {
        const Path &path = network.paths[p];
        skew_put_path(file.data(), n, p, path.from, path.to, path.dmin, path.dmax);
    }
    return file;
}

// Each rule of the loop that is shown, by its kind and with the names of the registers at its tail and its head.
void print_loop(const Network &network, const std::vector<std::uint8_t> &file, const std::vector<std::uint8_t> &out) {
    if (skew_entries(out.data()) > 0) std::cout << "loop\n";
    for (std::size_t j = 0; j < skew_entries(out.data()); ++j) {
        const std::int32_t kind = skew_entry_kind(out.data(), j), number = skew_entry_number(out.data(), j);
        const std::string &tail = network.registers[skew_tail(file.data(), kind, number)].name;
        const std::string &head = network.registers[skew_head(file.data(), kind, number)].name;
        std::cout << "  " << skew_kind_name(kind) << " " << number << ", " << tail << " to " << head << "\n";
    }
}

void print_schedule(const Network &network) {
    const std::vector<std::uint8_t> file = file_of(network);
    std::vector<std::uint8_t> out(skew_room(network.registers.size()));
    const std::uint64_t result = skew_schedule(file.data(), file.size(), out.data(), out.size());
    const std::uint32_t number = skew_number(result);
    if (number == SKEW_ANSWERED) {
        std::cout << "period " << skew_period(out.data()) << "\n";
        for (std::size_t i = 0; i < skew_latencies(out.data()); ++i)
            std::cout << "  " << network.registers[i].name << ": " << skew_latency(out.data(), i) << "\n";
    } else {
        std::cout << "refused " << number << " " << skew_place(result) << ": " << skew_message(number) << "\n";
    }
    if (number == SKEW_ANSWERED || number == SKEW_NO_PERIOD || number == SKEW_NONE_TO_CEILING) print_loop(network, file, out);
}

} // namespace

int main() {
    print_schedule(counter(100));
    print_schedule(counter(14));
}
