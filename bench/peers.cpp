#include "peers.h"

#include <cstdlib>
#include <cstdio>

#include <minisat/core/Solver.h>
extern "C" {
#include <picosat/picosat.h>

struct Reply {
    uint64_t yes, low, high;
};
// crates/exported: a slice is a pointer and then a length.
uint32_t hokhnebi_propagating(size_t clauses, size_t literals, const uint8_t* held, size_t held_len, const uint8_t* questions,
                              size_t questions_len, Reply* replies, size_t replies_len);
uint32_t hokhnebi_counting(size_t clauses, size_t literals, const uint8_t* held, size_t held_len, const uint8_t* questions,
                           size_t questions_len, Reply* replies, size_t replies_len);
}

namespace {

using Exported = uint32_t (*)(size_t, size_t, const uint8_t*, size_t, const uint8_t*, size_t, Reply*, size_t);

std::vector<Answer> ours(Exported call, const Clauses& held, const Clauses& questions) {
    std::vector<uint8_t> clauses = spelled(held), asked = spelled(questions);
    std::vector<Reply> replies(questions.size());
    size_t literals = clauses.size() - held.size();
    uint32_t code = call(held.size(), literals, clauses.data(), clauses.size(), asked.data(), asked.size(), replies.data(), replies.size());
    if (code != 0) {
        std::fprintf(stderr, "nothing was asked: %s\n", code == 1 ? "no memory" : "a clause does not fit");
        std::exit(1);
    }
    std::vector<Answer> answers;
    for (const Reply& reply : replies) answers.push_back({reply.yes == 1, reply.low, reply.high});
    return answers;
}

}  // namespace

std::vector<Answer> propagating(const Clauses& held, const Clauses& questions) { return ours(hokhnebi_propagating, held, questions); }

std::vector<Answer> counting(const Clauses& held, const Clauses& questions) { return ours(hokhnebi_counting, held, questions); }

std::vector<Answer> picosat(const Clauses& held, const Clauses& questions) {
    PicoSAT* solver = picosat_init();
    for (const Clause& clause : held) {
        for (uint8_t literal : clause) picosat_add(solver, number(literal));
        picosat_add(solver, 0);
    }
    std::vector<Answer> answers;
    for (const Clause& assumed : questions) {
        for (uint8_t literal : assumed) picosat_assume(solver, number(literal));
        Answer answer;
        answer.yes = picosat_sat(solver, -1) == PICOSAT_SATISFIABLE;
        int most = picosat_variables(solver);
        for (int v = 1; answer.yes && v <= most && v <= 128; v++)
            if (picosat_deref(solver, v) == 1) (v <= 64 ? answer.low : answer.high) |= 1ull << ((v - 1) % 64);
        answers.push_back(answer);
    }
    picosat_reset(solver);
    return answers;
}

std::vector<Answer> minisat(const Clauses& held, const Clauses& questions) {
    Minisat::Solver solver;
    auto literal_of = [&](uint8_t literal) {
        while (solver.nVars() <= literal / 2) solver.newVar();
        return Minisat::mkLit(literal / 2, (literal & 1) != 0);
    };
    for (const Clause& clause : held) {
        Minisat::vec<Minisat::Lit> literals;
        for (uint8_t literal : clause) literals.push(literal_of(literal));
        solver.addClause(literals);
    }
    std::vector<Answer> answers;
    for (const Clause& assumed : questions) {
        Minisat::vec<Minisat::Lit> literals;
        for (uint8_t literal : assumed) literals.push(literal_of(literal));
        Answer answer;
        answer.yes = solver.solve(literals);
        for (int v = 0; answer.yes && v < solver.nVars() && v < 128; v++)
            if (solver.model[v] == Minisat::lbool((uint8_t)0)) (v < 64 ? answer.low : answer.high) |= 1ull << (v % 64);
        answers.push_back(answer);
    }
    return answers;
}
