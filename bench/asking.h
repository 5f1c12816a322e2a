// PicoSAT with the clauses of a system, which counts its questions.
#pragma once
#include <memory>

#include "cases.h"
extern "C" {
#include <picosat/picosat.h>
}

class Solver {
    std::unique_ptr<PicoSAT, decltype(&picosat_reset)> solver{picosat_init(), picosat_reset};

public:
    uint64_t asked = 0;

    // Holds nothing.
    Solver() { picosat_adjust(solver.get(), 128); }
    // Holds the step clauses and safety clauses of a system.
    explicit Solver(const System& system) : Solver() {
        add_all(system.step);
        add_all(system.safety);
    }
    void add_all(const Clauses& list) {
        for (const Clause& clause : list) add(clause);
    }
    void add_number(int number) { picosat_add(solver.get(), number); }
    void add(const Clause& clause) {
        for (uint8_t literal : clause) add_number(number(literal));
        add_number(0);
    }
    int fresh() { return picosat_inc_max_var(solver.get()); }
    void open() { picosat_push(solver.get()); }
    void close() { picosat_pop(solver.get()); }
    bool ask(const Clause& assumed) {
        for (uint8_t literal : assumed) picosat_assume(solver.get(), number(literal));
        asked++;
        return picosat_sat(solver.get(), -1) == PICOSAT_SATISFIABLE;
    }
    // The state in the last yes, of the variables from `first` on.
    uint32_t state(unsigned first) {
        uint32_t state = 0;
        for (unsigned relay = 0; relay < 32; relay++)
            if (picosat_deref(solver.get(), (int)(first + relay) + 1) == 1) state |= 1u << relay;
        return state;
    }
};

// The literals of the marked relays that are true at the state or false at it, over the variables from `first` on.
inline Clause literals(const std::vector<uint8_t>& marks, uint32_t state, unsigned first, bool truth) {
    Clause clause;
    for (unsigned relay = 0; relay < marks.size(); relay++)
        if (marks[relay] == 1) clause.push_back(literal(first + relay, ((state >> relay & 1) != 0) != truth));
    return clause;
}

// Leaves marked the relays of the largest part of the clause of the marked literals that each step keeps true, of those false at
// the state. The solver then holds clauses more.
inline void sift_literals(Solver& solver, uint32_t state, std::vector<uint8_t>& marks) {
    for (;;) {
        // marks are only taken away, so each clause makes those before it true and may stay
        solver.add(literals(marks, state, 0, false));
        if (!solver.ask(literals(marks, state, 32, true))) break;
        uint32_t differing = solver.state(0) ^ state;
        for (unsigned relay = 0; relay < marks.size(); relay++)
            if (differing >> relay & 1) marks[relay] = 0;
    }
}
