// Compares descents of the library with the same sifting over PicoSAT in one process, and counts the questions of each.
// A descent that asks too many questions, or two that leave different marks, end the run with an error.
#include <algorithm>
#include <chrono>
#include <cstdio>
#include <cstdlib>

#include "sifting.h"

namespace {

void fail(const char* name, const char* what) {
    std::fprintf(stderr, "%s: %s\n", name, what);
    std::exit(1);
}

// The time of a descent is added to `total`.
template <class Descend>
Descent timed(double& total, Descend descend) {
    auto start = std::chrono::steady_clock::now();
    Descent descent = descend();
    total += std::chrono::duration<double, std::micro>(std::chrono::steady_clock::now() - start).count();
    return descent;
}

// What descents come to over cases of one kind: their number, the places that stay marked, questions and times in all.
struct Row {
    const char* name;
    uint64_t bound;
    double ours = 0, peer = 0;
    uint64_t descents = 0, asked = 0, most = 0, peer_asked = 0, stay = 0;

    void add(const Descent& one, const Descent& other) {
        if (one.asked > bound) fail(name, "a descent asked more questions than the bound");
        if (one.marks != other.marks) fail(name, "the library and PicoSAT left different marks");
        descents++;
        asked += one.asked;
        most = std::max(most, one.asked);
        peer_asked += other.asked;
        stay += (uint64_t)std::count(one.marks.begin(), one.marks.end(), 1);
    }

    void print() const {
        double count = (double)descents;
        std::printf("| %-34s | %8zu | %7.1f | %8.1f | %6zu | %6zu | %10.1f | %8.1f | %10.1f | %7.2f |\n", name, (size_t)descents, stay / count, asked / count,
                    (size_t)most, (size_t)bound, ours / count, peer_asked / count, peer / count, ours / peer);
        std::fflush(stdout);
    }
};

void print_head() {
    std::printf("| %-34s | %8s | %7s | %8s | %6s | %6s | %10s | %8s | %10s | %7s |\n", "cases", "descents", "stay", "asked", "most", "bound", "ours us",
                "by peer", "picosat us", "ratio");
    std::printf("|------------------------------------|---------:|--------:|---------:|-------:|-------:|-----------:|---------:|-----------:|--------:|\n");
}

void literal_row(const char* kind, System (*make)(Random&, unsigned), unsigned relays) {
    char name[64];
    std::snprintf(name, sizeof name, "%s, %u relays", kind, relays);
    // each question but the last unmarks a relay
    Row row{name, relays + 1};
    Random random(relays);
    for (unsigned k = 0; k < 500; k++) {
        System system = make(random, relays);
        std::vector<uint8_t> bytes = bytes_of(system);
        Descent one = timed(row.ours, [&] { return library_literals(bytes, relays, system.state); });
        row.add(one, timed(row.peer, [&] { return picosat_literals(system); }));
    }
    row.print();
}

void candidate_rows() {
    const unsigned count = 512;
    // each sift but the last takes a mark away
    Row each{"512 candidates", count * (count + 1)}, at_once{"the same, asked at once by PicoSAT", each.bound};
    Random random(5);
    for (unsigned k = 0; k < 20; k++) {
        System system = paired(random);
        Clauses list = candidates(random, system, count);
        std::vector<uint8_t> bytes = bytes_of(system), listed = spelled(list);
        Descent one = timed(each.ours, [&] { return library_candidates(bytes, listed, count); });
        each.add(one, timed(each.peer, [&] { return picosat_candidates(system, list); }));
        at_once.add(one, timed(at_once.peer, [&] { return picosat_at_once(system, list); }));
    }
    at_once.ours = each.ours;
    each.print();
    at_once.print();
}

}  // namespace

int main() {
    print_head();
    for (unsigned relays : {8u, 16u, 32u}) literal_row("functions", functions, relays);
    for (unsigned relays : {8u, 16u, 32u}) literal_row("functions, reached", functions_reached, relays);
    for (unsigned relays : {8u, 16u, 32u}) literal_row("latches", latches, relays);
    for (unsigned relays : {8u, 16u, 32u}) literal_row("latches, reached", latches_reached, relays);
    for (unsigned relays : {8u, 16u, 32u}) literal_row("countdown", countdown, relays);
    candidate_rows();
}
