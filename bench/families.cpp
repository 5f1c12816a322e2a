#include "families.h"

namespace {

uint8_t drawn(Random& random, unsigned first, unsigned variables) { return literal(first + random.below(variables), random.below(2) == 1); }

}  // namespace

Clauses random3(Random& random, unsigned first, unsigned variables, unsigned count) {
    Clauses list;
    while (list.size() < count) {
        unsigned a = random.below(variables), b = random.below(variables), c = random.below(variables);
        if (a == b || a == c || b == c) continue;
        list.push_back({literal(first + a, random.below(2) == 1), literal(first + b, random.below(2) == 1), literal(first + c, random.below(2) == 1)});
    }
    return list;
}

Clauses pigeonhole(unsigned first, unsigned holes) {
    Clauses list;
    for (unsigned pigeon = 0; pigeon <= holes; pigeon++) {
        Clause somewhere;
        for (unsigned hole = 0; hole < holes; hole++) somewhere.push_back(literal(first + pigeon * holes + hole, false));
        list.push_back(somewhere);
    }
    for (unsigned hole = 0; hole < holes; hole++)
        for (unsigned one = 0; one <= holes; one++)
            for (unsigned other = one + 1; other <= holes; other++)
                list.push_back({literal(first + one * holes + hole, true), literal(first + other * holes + hole, true)});
    return list;
}

Clauses unrelated(Random& random, unsigned variables) {
    Clauses list;
    if (variables > 0) list = random3(random, 0, variables, 2 * variables);
    for (const Clause& clause : pigeonhole(98, 5)) list.push_back(clause);
    return list;
}

Question transition(Random& random, unsigned questions) {
    Question result;
    // each relay after the step is a function of four relays before it or inputs
    for (unsigned relay = 0; relay < 32; relay++) {
        unsigned from[4];
        for (unsigned& variable : from) variable = random.below(2) == 1 ? random.below(32) : 64 + random.below(64);
        for (unsigned row = 0; row < 16; row++) {
            Clause clause;
            for (unsigned k = 0; k < 4; k++) clause.push_back(literal(from[k], ((row >> k) & 1) == 1));
            clause.push_back(literal(32 + relay, random.below(2) == 1));
            result.held.push_back(clause);
        }
    }
    // and what else is known of relays and inputs before the step
    while (result.held.size() < 1000) {
        Clause clause;
        for (unsigned k = 0; k < 4 + random.below(3); k++) clause.push_back(literal(random.below(2) == 1 ? random.below(32) : 64 + random.below(64), random.below(2) == 1));
        result.held.push_back(clause);
    }
    for (unsigned q = 0; q < questions; q++) {
        Clause assumed;
        unsigned kind = q % 3;
        if (kind != 1)
            for (unsigned relay = 0; relay < 32; relay += kind == 0 ? 1 : 4) assumed.push_back(literal(relay, random.below(2) == 1));
        if (kind != 0)
            for (unsigned relay = 0; relay < 32; relay += 1 + random.below(8)) assumed.push_back(literal(32 + relay, random.below(2) == 1));
        result.assumed.push_back(assumed);
    }
    return result;
}

Question small(Random& random) {
    Question result;
    unsigned variables = 1 + random.below(8);
    unsigned first = random.below(4) == 0 ? 128 - variables : random.below(128 - variables + 1);
    unsigned count = random.below(4 * variables + 2);
    for (unsigned k = 0; k < count; k++) {
        Clause clause;
        unsigned length = random.below(40) == 0 ? 0 : 1 + random.below(5);
        for (unsigned i = 0; i < length; i++) clause.push_back(i > 0 && random.below(5) == 0 ? clause[0] : drawn(random, first, variables));
        result.held.push_back(clause);
    }
    unsigned questions = 1 + random.below(3);
    for (unsigned q = 0; q < questions; q++) {
        Clause assumed;
        unsigned length = random.below(variables + 2);
        for (unsigned i = 0; i < length; i++) assumed.push_back(drawn(random, first, variables));
        result.assumed.push_back(assumed);
    }
    return result;
}
