#include "sifting.h"

#include <cstdio>
#include <cstdlib>

#include "asking.h"

extern "C" {
// crates/descents: a slice is a pointer and then a length.
uint32_t hokhnebi_literal_descent(const uint8_t* bytes, size_t bytes_len, uint32_t state, uint8_t* marks, size_t marks_len, uint64_t* asked);
uint32_t hokhnebi_candidate_descent(const uint8_t* bytes, size_t bytes_len, const uint8_t* listed, size_t listed_len, uint8_t* marks,
                                    size_t marks_len, uint64_t* asked);
}

namespace {

void need_descended(uint32_t code) {
    if (code == 0) return;
    std::fprintf(stderr, "the library refused a descent: %u\n", code);
    std::exit(1);
}

Clause denied_after(const Clause& candidate) {
    Clause denied;
    for (uint8_t literal : candidate) denied.push_back((uint8_t)((literal ^ 1) + 64));
    return denied;
}

void unmark_false(const Clauses& list, uint32_t state, std::vector<uint8_t>& marks) {
    for (size_t k = 0; k < list.size(); k++)
        if (!is_true(list[k], state)) marks[k] = 0;
}

void add_marked(Solver& solver, const Clauses& list, const std::vector<uint8_t>& marks) {
    for (size_t k = 0; k < list.size(); k++)
        if (marks[k] == 1) solver.add(list[k]);
}

// Whether a step makes one of the marked candidates false, asked of one after another.
bool is_one_broken(Solver& solver, const Clauses& list, const std::vector<uint8_t>& marks) {
    for (size_t k = 0; k < list.size(); k++)
        if (marks[k] == 1 && solver.ask(denied_after(list[k]))) return true;
    return false;
}

// Sifts candidates until no step makes a marked one false, as `is_broken` finds out.
template <class IsBroken>
Descent sifted(Solver& solver, const Clauses& list, IsBroken is_broken) {
    Descent descent{std::vector<uint8_t>(list.size(), 1)};
    bool fewer = true;
    while (fewer) {
        solver.open();
        add_marked(solver, list, descent.marks);
        fewer = is_broken(descent.marks);
        uint32_t state = fewer ? solver.state(32) : 0;
        solver.close();
        if (fewer) unmark_false(list, state, descent.marks);
    }
    descent.asked = solver.asked;
    return descent;
}

}  // namespace

Descent library_literals(const std::vector<uint8_t>& bytes, unsigned relays, uint32_t state) {
    Descent descent{std::vector<uint8_t>(relays, 1)};
    need_descended(hokhnebi_literal_descent(bytes.data(), bytes.size(), state, descent.marks.data(), relays, &descent.asked));
    return descent;
}

Descent library_candidates(const std::vector<uint8_t>& bytes, const std::vector<uint8_t>& listed, size_t count) {
    Descent descent{std::vector<uint8_t>(count, 1)};
    need_descended(hokhnebi_candidate_descent(bytes.data(), bytes.size(), listed.data(), listed.size(), descent.marks.data(), count, &descent.asked));
    return descent;
}

Descent picosat_literals(const System& system) {
    Solver solver(system);
    Descent descent{std::vector<uint8_t>(system.relays, 1)};
    sift_literals(solver, system.state, descent.marks);
    descent.asked = solver.asked;
    return descent;
}

Descent picosat_candidates(const System& system, const Clauses& list) {
    Solver solver(system);
    return sifted(solver, list, [&](const std::vector<uint8_t>& marks) { return is_one_broken(solver, list, marks); });
}

Descent picosat_at_once(const System& system, const Clauses& list) {
    Solver solver(system);
    std::vector<int> broken;
    for (const Clause& candidate : list) {
        broken.push_back(solver.fresh());
        for (uint8_t literal : denied_after(candidate)) solver.add_number(-broken.back()), solver.add_number(number(literal)), solver.add_number(0);
    }
    return sifted(solver, list, [&](const std::vector<uint8_t>& marks) {
        for (size_t k = 0; k < list.size(); k++)
            if (marks[k] == 1) solver.add_number(broken[k]);
        solver.add_number(0);
        return solver.ask({});
    });
}
