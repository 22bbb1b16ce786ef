// The table of the rule question: the module's beside the plain one.
#pragma once
#include "sets.hpp"

void print_questions(const std::vector<Set> &sets);
