#include "judging.h"

#include <algorithm>
#include <chrono>
#include <csignal>
#include <cstdio>
#include <cstdlib>
#include <sys/wait.h>
#include <unistd.h>

#include "asking.h"

namespace {

struct Entry {
    bool is_subgoal;
    uint32_t state;  // of a subgoal
    Clause clause;   // that is held
};

Clause part(const std::vector<uint8_t>& marks, uint32_t state) { return literals(marks, state, 0, false); }

Clause denied(Clause clause, unsigned first) {
    for (uint8_t& literal : clause) literal = (uint8_t)((literal ^ 1) + 2 * first);
    return clause;
}

// The turns of a work, as docs/WORK.md has them.
class Turning {
    const System& system;
    Solver steps, starts;
    std::vector<Entry> entries;
    std::vector<uint8_t> every;  // all relays marked

    bool is_initial(uint32_t state) const {
        return std::all_of(system.start.begin(), system.start.end(), [&](const Clause& clause) { return is_true(clause, state); });
    }
    bool is_true_initially(const Clause& clause) { return !starts.ask(denied(clause, 0)); }
    void sift(uint32_t state, std::vector<uint8_t>& marks) {
        steps.open();
        sift_literals(steps, state, marks);
        steps.close();
    }
    bool is_step_to(const Clause& broken, uint32_t& state) {
        bool is_step = steps.ask(denied(broken, 32));
        if (is_step) state = steps.state(0) & (uint32_t)((1ull << system.relays) - 1);
        return is_step;
    }
    // The state before a step to the first target that there is such a step to.
    bool find(uint32_t& state) {
        for (const Clause& clause : system.safety)
            if (is_step_to(clause, state)) return true;
        for (const Entry& entry : entries)
            if (entry.is_subgoal && is_step_to(entry.clause, state)) return true;
        return false;
    }
    void trim(uint32_t state, std::vector<uint8_t>& marks) {
        for (unsigned relay = 0; relay < system.relays; relay++) {
            if (marks[relay] == 0) continue;
            std::vector<uint8_t> fewer = marks;
            fewer[relay] = 0;
            sift(state, fewer);
            if (is_true_initially(part(fewer, state))) marks = fewer;
        }
    }
    void store(Entry entry) {
        steps.add(entry.clause);
        entries.push_back(entry);
    }
    // The verdict after a turn from the state.
    Verdict learn(uint32_t state) {
        std::vector<uint8_t> marks = every;
        sift(state, marks);
        if (is_true_initially(part(marks, state))) {
            trim(state, marks);
            store({false, 0, part(marks, state)});
            return Verdict::UNDECIDED;
        }
        store({true, state, part(every, state)});
        return is_initial(state) ? Verdict::BROKEN : Verdict::UNDECIDED;
    }

public:
    explicit Turning(const System& system) : system(system), steps(system), every(system.relays, 1) { starts.add_all(system.start); }
    Judged judged(size_t places) {
        Judged result;
        for (const Clause& clause : system.safety)
            if (starts.ask(denied(clause, 0))) {
                result.verdict = Verdict::BROKEN;
                break;
            }
        while (result.verdict == Verdict::UNDECIDED) {
            uint32_t state = 0;
            if (!find(state)) result.verdict = Verdict::HOLDS;
            else if (entries.size() < places) result.verdict = learn(state);
            else break;
            result.turns++;
        }
        result.used = entries.size();
        result.asked = steps.asked + starts.asked;
        return result;
    }
};

void fail(const std::string& what) {
    std::fprintf(stderr, "%s\n", what.c_str());
    std::exit(1);
}

const char PEER_FILE[] = "target/bench/peer.aig";

}  // namespace

Judged library_judged(const std::vector<uint8_t>& bytes, size_t places) {
#ifdef WITHOUT_LIBRARY
    (void)bytes, (void)places;
    return {};
#else
    JudgeTold told{};
    uint32_t code = hokhnebi_judge(bytes.data(), bytes.size(), places, &told);
    if (code != 0) fail("the library refused a case: " + std::to_string(code));
    if (told.verdict > 2) fail("the library gave no verdict that there is");
    return {(Verdict)told.verdict, told.turns, told.used, told.asked};
#endif
}

Judged picosat_judged(const System& system, size_t places) { return Turning(system).judged(places); }

Peer::Peer() {
    int in[2], out[2];
    if (pipe(in) != 0 || pipe(out) != 0) fail("no pipe");
    std::signal(SIGPIPE, SIG_IGN);
    process = fork();
    if (process < 0) fail("no process");
    if (process == 0) {
        dup2(in[0], 0), dup2(out[1], 1);
        for (int end : {in[0], in[1], out[0], out[1]}) close(end);
        execlp("stdbuf", "stdbuf", "-oL", "berkeley-abc", (char*)nullptr);
        _exit(1);
    }
    close(in[0]), close(out[1]);
    to = fdopen(in[1], "w"), from = fdopen(out[0], "r");
}

Peer::~Peer() {
    std::fputs("quit\n", to);
    std::fclose(to), std::fclose(from);
    waitpid(process, nullptr, 0);
}

std::string Peer::command(const std::string& line, double& total) {
    auto start = std::chrono::steady_clock::now();
    std::fprintf(to, "%s\necho told\n", line.c_str());
    std::fflush(to);
    char said[4096];
    std::string lines;
    while (std::fgets(said, sizeof said, from) != nullptr) {
        if (std::string(said).find("told") == 0) {
            total += std::chrono::duration<double, std::milli>(std::chrono::steady_clock::now() - start).count();
            return lines;
        }
        lines += said;
    }
    fail("the peer ended: is berkeley-abc installed?\n" + lines);
    return lines;
}

Verdict Peer::judged(const std::vector<uint8_t>& file, double& total) {
    FILE* written = std::fopen(PEER_FILE, "wb");
    bool is_written = written != nullptr && std::fwrite(file.data(), 1, file.size(), written) == file.size() && std::fclose(written) == 0;
    if (!is_written) fail("the file for the peer was not written");
    double reading = 0;
    command(std::string("read ") + PEER_FILE, reading);
    std::string lines = command("pdr -T 60", total);
    if (lines.find("Property proved") != std::string::npos) return Verdict::HOLDS;
    if (lines.find("was asserted in frame") != std::string::npos) return Verdict::BROKEN;
    fail("the peer gave no verdict:\n" + lines);
    return Verdict::UNDECIDED;
}
