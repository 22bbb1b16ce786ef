// The stack that a call uses, in bytes.
#pragma once
#include "make.hpp"
#include "network.hpp"

size_t stack_used(Schedule schedule, const File &file);
