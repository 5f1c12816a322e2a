// The lists of clauses that the benchmark and the differential test ask about, each made from a seed.
#pragma once
#include "clauses.h"

struct Question {
    Clauses held;
    Clauses assumed;
};

// Clauses of three literals on different variables, among `variables` from `first` on.
Clauses random3(Random& random, unsigned first, unsigned variables, unsigned count);
// One pigeon more than holes, on the variables from `first` on: unsatisfiable.
Clauses pigeonhole(unsigned first, unsigned holes);
// The same unsatisfiable core on the variables 98 to 127, and so many unrelated variables from 0 on.
Clauses unrelated(Random& random, unsigned variables);
// A step relation of 1,000 clauses over 32 relays before it, 32 after it and 64 inputs, with questions about it.
Question transition(Random& random, unsigned questions);
// A short list over few variables, with repeated literals and empty clauses now and then, with assumed literals.
Question small(Random& random);
