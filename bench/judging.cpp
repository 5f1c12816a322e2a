// Judges circuits that were turned into cases: by the library, by the same turns over PicoSAT, and by a peer that judges circuits. A
// verdict that differs from the peer's, or the peer's from what can be reached, or too many questions end the run with an error.
// With `differ N`: judges N small circuits of drawn gates and says only how many. With `write FOLDER`: writes the cases there.
#include <algorithm>
#include <chrono>
#include <cstdio>
#include <cstdlib>
#include <cstring>
#include <functional>

#include "judging.h"

namespace {

#ifdef WITHOUT_LIBRARY
const bool HAS_LIBRARY = false;
#else
const bool HAS_LIBRARY = true;
#endif

// How many places a book has, where there are not as few states.
const size_t MOST_PLACES = 512;

void fail(const std::string& name, const char* what) {
    std::fprintf(stderr, "%s: %s\n", name.c_str(), what);
    std::exit(1);
}

// At most so many questions: one for each safety clause at opening; and each turn one, one for each safety clause and each entry
// before it, and those of a descent and its trim.
uint64_t allowed(const System& system, const Judged& judged) {
    uint64_t relays = system.relays, safety = system.safety.size(), sum = safety;
    for (uint64_t turn = 0; turn < judged.turns; turn++) sum += 1 + safety + turn + (relays + 1) * (relays + 1) + relays + 1;
    return sum;
}

// What judgings of one row come to, of the library or over PicoSAT.
struct Sum {
    size_t turns = 0, used = 0, undecided = 0;
    uint64_t asked = 0, allowed = 0;
    double time = 0;

    template <class Judge>
    void add(const std::string& name, const System& system, Verdict verdict, Judge judge) {
        size_t states = (size_t)1 << system.relays, places = std::min(states, MOST_PLACES);
        auto start = std::chrono::steady_clock::now();
        Judged judged = judge(places);
        time += std::chrono::duration<double, std::milli>(std::chrono::steady_clock::now() - start).count();
        bool is_undecided = judged.verdict == Verdict::UNDECIDED;
        if (is_undecided && (judged.used < places || places == states)) fail(name, "no verdict, although there are places");
        if (!is_undecided && judged.verdict != verdict) fail(name, "a verdict differs from the peer's");
        size_t without_entry = judged.verdict == Verdict::HOLDS ? 1 : 0;
        if (judged.turns != judged.used + without_entry) fail(name, "not one turn for each entry, and one more where it holds");
        if (judged.turns > states + 1) fail(name, "more turns than one for each state, and one");
        uint64_t most = ::allowed(system, judged);
        if (judged.asked > most) fail(name, "more questions than the bound");
        undecided += is_undecided ? 1 : 0;
        turns += judged.turns, used += judged.used, asked += judged.asked, allowed += most;
    }
};

struct Row {
    std::string name;
    size_t count = 0, holds = 0, searched = 0, relays = 0, inputs = 0, clauses = 0;
    Sum ours, pico;
    double peer_time = 0;

    void add(Peer& peer, Random& random, const Circuit& circuit) {
        Told told = ::told(circuit);
        check_told(random, circuit, told, name.c_str());
        const System& system = told.system;
        Verdict verdict = peer.judged(aiger(circuit), peer_time);
        Searched all = ::searched(circuit);
        if (all.done && all.broken != (verdict == Verdict::BROKEN)) fail(name, "the peer's verdict differs from what can be reached");
        std::vector<uint8_t> bytes = bytes_of(system);
        if (HAS_LIBRARY) ours.add(name, system, verdict, [&](size_t places) { return library_judged(bytes, places); });
        pico.add(name, system, verdict, [&](size_t places) { return picosat_judged(system, places); });
        count++, searched += all.done ? 1 : 0, holds += verdict == Verdict::HOLDS ? 1 : 0;
        relays = std::max<size_t>(relays, system.relays);
        inputs = std::max<size_t>(inputs, system.input_count);
        clauses = std::max(clauses, system.step.size());
    }

    void print() const {
        double each = (double)count;
        std::string verdict = holds == count ? "holds" : holds == 0 ? "broken" : std::to_string(holds) + " hold";
        const Sum& shown = HAS_LIBRARY ? ours : pico;
        std::printf("| %-32s | %5zu | %6zu | %6zu | %7zu | %7s | %4zu |", name.c_str(), count, relays, inputs, clauses, verdict.c_str(), shown.undecided);
        std::printf(" %6.1f | %7.1f | %8.1f | %8.1f |", shown.turns / each, shown.used / each, shown.asked / each, shown.allowed / each);
        if (HAS_LIBRARY) std::printf(" %9.2f |", ours.time / each);
        else std::printf(" %9s |", "-");
        std::printf(" %7.1f | %9.2f | %8.1f |", pico.turns / each, pico.time / each, peer_time / each);
        if (HAS_LIBRARY) std::printf(" %7.2f | %7.3f |\n", ours.time / pico.time, ours.time / peer_time);
        else std::printf(" %7s | %7s |\n", "-", "-");
        std::fflush(stdout);
    }
};

void print_head() {
    std::printf("| %-32s | %5s | %6s | %6s | %7s | %7s | %4s |", "circuits", "count", "relays", "inputs", "clauses", "verdict", "open");
    std::printf(" %6s | %7s | %8s | %8s |", "turns", "entries", "asked", "allowed");
    std::printf(" %9s | %7s | %9s | %8s | %7s | %7s |\n", "ours ms", "by pico", "pico ms", "peer ms", "/pico", "/peer");
    std::printf("|----------------------------------|------:|-------:|-------:|--------:|--------:|-----:|-------:|--------:|---------:|---------:|");
    std::printf("----------:|--------:|----------:|---------:|--------:|--------:|\n");
}

using Make = std::function<Circuit()>;

// Hands on the name of each row, how many circuits it has, and how one is made.
template <class Use>
void families(Random& random, Use use) {
    use("counter, 1 bit, reached", 1, [] { return counter(1, 2, 1); });
    for (unsigned bits : {4u, 6u, 8u}) {
        unsigned limit = bits == 4 ? 10 : bits == 6 ? 50 : 200;
        std::string name = "counter, " + std::to_string(bits) + " bits";
        use(name, 1, [=] { return counter(bits, limit, (1u << bits) - 1); });
        use(name + ", reached", 1, [=] { return counter(bits, limit, limit - 1); });
    }
    for (unsigned bits : {3u, 5u, 7u}) use("gray, " + std::to_string(bits) + " bits", 1, [=] { return gray(bits); });
    for (unsigned relays : {4u, 6u, 8u, 12u}) {
        std::string name = "johnson, " + std::to_string(relays) + " relays";
        use(name, 1, [=] { return johnson(relays, false); });
        use(name + ", reached", 1, [=] { return johnson(relays, true); });
    }
    for (unsigned relays : {4u, 6u, 8u, 16u}) use("shifted token, " + std::to_string(relays) + " relays", 1, [=] { return shifted(relays); });
    for (unsigned relays : {4u, 6u, 8u, 16u}) use("handed token, " + std::to_string(relays) + " relays", 1, [=] { return handed(relays); });
    for (unsigned count : {2u, 3u, 8u}) {
        std::string name = std::to_string(count) + " trains, 1 section";
        use(name, 1, [=] { return trains(count, false); });
        use(name + ", careless", 1, [=] { return trains(count, true); });
    }
    for (unsigned count : {3u, 5u, 10u}) {
        std::string name = "2 trains, " + std::to_string(count) + " sections";
        use(name, 1, [=] { return sections(count, false); });
        use(name + ", careless", 1, [=] { return sections(count, true); });
    }
    use("seven relays", 1, seven);
    for (unsigned relays : {6u, 9u, 12u, 16u}) {
        std::string name = "gates, " + std::to_string(relays) + " relays";
        use(name, 50, [=, &random] { return gates(random, relays, 3, 4 * relays, false); });
        use(name + ", many starts", 50, [=, &random] { return gates(random, relays, 3, 4 * relays, true); });
    }
}

void table() {
    Peer peer;
    Random random(17);
    size_t count = 0, searched = 0, wanted = 0;
    print_head();
    families(random, [&](const std::string& name, size_t number, const Make& make) {
        Row row{name};
        for (size_t k = 0; k < number; k++) row.add(peer, random, make());
        row.print();
        count += row.count, searched += row.searched;
        wanted += HAS_LIBRARY ? row.ours.undecided : row.pico.undecided;
    });
    std::printf("%zu circuits, %zu of them searched: each verdict agrees; %zu were left open for want of places\n", count, searched, wanted);
}

void differ(size_t number) {
    Peer peer;
    Random random(23);
    Row row;
    for (size_t k = 0; k < number; k++) {
        row.name = "small circuit " + std::to_string(k);
        unsigned relays = 2 + random.below(7), inputs = random.below(4);
        row.add(peer, random, gates(random, relays, inputs, random.below(6 * relays), random.coin()));
    }
    std::printf("%zu circuits, %zu of them searched, %zu hold: %sPicoSAT, the peer and the search agree\n", row.count, row.searched, row.holds,
                HAS_LIBRARY ? "the library, " : "");
}

// Writes a case of each row, and says of each what can be reached, `?` where it was not searched, and its file.
void write(const std::string& folder) {
    Random random(17);
    families(random, [&](const std::string& name, size_t, const Make& make) {
        Circuit circuit = make();
        std::string path = folder + "/" + name + ".case";
        path.erase(std::remove(path.begin(), path.end(), ','), path.end());
        std::replace(path.begin(), path.end(), ' ', '-');
        std::vector<uint8_t> bytes = bytes_of(told(circuit).system);
        FILE* file = std::fopen(path.c_str(), "wb");
        if (file == nullptr || std::fwrite(bytes.data(), 1, bytes.size(), file) != bytes.size() || std::fclose(file) != 0) fail(path, "not written");
        Searched all = searched(circuit);
        std::printf("%s %s\n", !all.done ? "?" : all.broken ? "broken" : "holds", path.c_str());
    });
}

}  // namespace

int main(int argc, char** argv) {
    if (argc == 3 && std::strcmp(argv[1], "differ") == 0) differ((size_t)std::atol(argv[2]));
    else if (argc == 3 && std::strcmp(argv[1], "write") == 0) write(argv[2]);
    else table();
}
