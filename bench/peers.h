// One question to each solver: the same clauses and the same assumed literals, as bytes.
#pragma once
#include "clauses.h"

struct Answer {
    bool yes = false;
    uint64_t low = 0, high = 0;
    bool value(unsigned variable) const { return ((variable < 64 ? low >> variable : high >> (variable - 64)) & 1) != 0; }
};

// Each makes its solver, adds the clauses once and asks the questions one after another.
std::vector<Answer> propagating(const Clauses& held, const Clauses& questions);
std::vector<Answer> counting(const Clauses& held, const Clauses& questions);
std::vector<Answer> picosat(const Clauses& held, const Clauses& questions);
std::vector<Answer> minisat(const Clauses& held, const Clauses& questions);
