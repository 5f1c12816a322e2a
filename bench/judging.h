// The judging of a case: by the library, by the same turns over PicoSAT, and by a peer that judges circuits.
#pragma once
#include "circuits.h"

// crates/judgements: a slice is a pointer and then a length. The result is 0 where the case was judged, 1 where there was no memory,
// and else the number of the refusal; with 0 it tells the verdict, 0 undecided, 1 holds, 2 broken, and what it came to.
extern "C" {
struct JudgeTold {
    uint32_t verdict;
    size_t turns, used;
    uint64_t asked;
};
uint32_t hokhnebi_judge(const uint8_t* bytes, size_t bytes_len, size_t places, JudgeTold* told);
}

enum class Verdict { UNDECIDED, HOLDS, BROKEN };

struct Judged {
    Verdict verdict = Verdict::UNDECIDED;
    size_t turns = 0, used = 0;  // turns that were not refused, and entries
    uint64_t asked = 0;          // questions
};

// Each turns until there is a verdict, or no place is free.
Judged library_judged(const std::vector<uint8_t>& bytes, size_t places);
Judged picosat_judged(const System& system, size_t places);

// The peer, one process that is told what to do line by line.
class Peer {
    FILE *to, *from;
    int process;

    // The lines that a command answers with. Its milliseconds are added to `total`.
    std::string command(const std::string& line, double& total);

public:
    Peer();
    ~Peer();
    Peer(const Peer&) = delete;
    Peer& operator=(const Peer&) = delete;
    // The milliseconds of deciding, without those of reading the file, are added to `total`.
    Verdict judged(const std::vector<uint8_t>& file, double& total);
};
