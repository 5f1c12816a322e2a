// Clauses as bytes, and the random numbers that they are drawn with. A literal is twice its variable, plus 1 if negated; a
// list is one length byte and then the literals of each clause, one clause after another.
#pragma once
#include <cstddef>
#include <cstdint>
#include <vector>

using Clause = std::vector<uint8_t>;
using Clauses = std::vector<Clause>;

inline uint8_t literal(unsigned variable, bool negated) { return (uint8_t)(2 * variable + (negated ? 1 : 0)); }

// The literal as PicoSAT has it.
inline int number(uint8_t literal) { return (literal & 1) ? -(literal / 2 + 1) : literal / 2 + 1; }

inline std::vector<uint8_t> spelled(const Clauses& list) {
    std::vector<uint8_t> bytes;
    for (const Clause& clause : list) {
        bytes.push_back((uint8_t)clause.size());
        bytes.insert(bytes.end(), clause.begin(), clause.end());
    }
    return bytes;
}

struct Random {
    uint64_t state;
    explicit Random(uint64_t seed) : state(seed * 0x9E3779B97F4A7C15ull + 0x2545F4914F6CDD1Dull) {}
    uint64_t next() {
        state ^= state << 13;
        state ^= state >> 7;
        state ^= state << 17;
        return state * 0x2545F4914F6CDD1Dull >> 16;
    }
    unsigned below(unsigned bound) { return (unsigned)(next() % bound); }
    bool coin() { return below(2) == 1; }
};
