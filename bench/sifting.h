// Descents from all marks to the largest closed set: by the library and by the same sifting over PicoSAT.
#pragma once
#include "cases.h"

struct Descent {
    std::vector<uint8_t> marks;
    uint64_t asked = 0;
};

// What the library reads: the bytes of a case and of a list of candidates.
Descent library_literals(const std::vector<uint8_t>& bytes, unsigned relays, uint32_t state);
Descent library_candidates(const std::vector<uint8_t>& bytes, const std::vector<uint8_t>& listed, size_t count);

Descent picosat_literals(const System& system);
// Asks about one marked candidate after another, as the library does.
Descent picosat_candidates(const System& system, const Clauses& list);
// Asks about all marked candidates in one question, by a variable of its own for each.
Descent picosat_at_once(const System& system, const Clauses& list);
