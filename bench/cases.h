// The cases that descents are measured on, each made from a seed. Each has 64 inputs and 1,024 step clauses, and from each
// state that meets its safety clauses there is a step.
#pragma once
#include "clauses.h"

struct System {
    unsigned relays;
    Clauses start, step, safety;
    uint32_t state = 0;                // where to descend, or the one start state
    uint32_t before = 0, reached = 0;  // a step leads from the one to the other
    uint64_t inputs = 0;               // under these inputs, which allow a step from each state
    unsigned input_count = 64;
};

// The bytes of the case.
std::vector<uint8_t> bytes_of(const System& system);
bool is_true(const Clause& clause, uint32_t state);

// Each relay after a step is a drawn function of three relays or inputs. The state is drawn, or a step leads to it.
System functions(Random& random, unsigned relays);
System functions_reached(Random& random, unsigned relays);
// Each relay keeps its value until a drawn relay or input turns it off, or on, or gives it the value of another.
System latches(Random& random, unsigned relays);
System latches_reached(Random& random, unsigned relays);
// The relays count down to rest in a drawn order, so that just one state leads to the next.
System countdown(Random& random, unsigned relays);

// Relays that are only turned off, relays that follow these, and pairs of which one implies the other after every step.
System paired(Random& random);
// So many clauses of one to three literals, true in the start state. Of each four, two are drawn, one says that a relay
// that is never turned on is off, and one that one relay of a pair implies the other; a drawn literal may widen these.
Clauses candidates(Random& random, const System& system, unsigned count);
