// The networks that are timed together: of one shape and size, or one real circuit at its settings.
#pragma once
#include "make.hpp"
#include "network.hpp"

struct Set {
    std::string shape;
    int n, m;
    std::vector<File> files;
};

// Twelve networks of a shape with n registers and about so many paths.
Set drawn(const std::string &shape, int n, int m, uint64_t seed);

// Every shape at its sizes, in the order of shapes().
std::vector<Set> all_drawn(uint64_t seed);

// The network files of a folder, which are named CIRCUIT-SETTING.net: a set of the shape 'real' for each circuit. None without a folder.
std::vector<Set> real_sets(const std::string &folder);
