// Seeded networks of the shapes that are timed.
#pragma once
#include <cstddef>
#include <cstdint>
#include <string>
#include <vector>

using File = std::vector<uint8_t>;

const std::vector<std::string> &shapes();

// The network of this shape with n registers and so many paths, at most 2,048. A dense network of up to 45 registers has a path for every
// two of them instead; chain, race, ring, decoy and stairs keep at least the paths that make them what they are, and barechain and
// barerace have these alone.
File make(const std::string &shape, int n, int paths, uint64_t seed);
