// Compares the propagating solver with PicoSAT and MiniSat in one process: `bench` prints a table of times and ratios,
// `bench differ N` asks N small random lists of both solvers and of PicoSAT and checks every yes.
#include <algorithm>
#include <chrono>
#include <cstdio>
#include <cstdlib>
#include <cstring>

#include "families.h"
#include "peers.h"

namespace {

using Solve = std::vector<Answer> (*)(const Clauses&, const Clauses&);

bool holds(const Clause& clause, const Answer& answer) {
    for (uint8_t literal : clause)
        if (answer.value(literal / 2) != ((literal & 1) != 0)) return true;
    return false;
}

void check(const Clauses& held, const Clause& assumed, const Answer& answer, const char* who) {
    if (!answer.yes) return;
    for (const Clause& clause : held)
        if (!holds(clause, answer)) std::fprintf(stderr, "%s: a clause is false\n", who), std::exit(1);
    for (uint8_t literal : assumed)
        if (!holds({literal}, answer)) std::fprintf(stderr, "%s: an assumed literal is false\n", who), std::exit(1);
}

void compare(const Question& question, const std::vector<Answer>& one, const char* who, const std::vector<Answer>& other, const char* peer) {
    for (size_t k = 0; k < question.assumed.size(); k++) {
        if (one[k].yes != other[k].yes) std::fprintf(stderr, "%s and %s differ\n", who, peer), std::exit(1);
        check(question.held, question.assumed[k], one[k], who);
        check(question.held, question.assumed[k], other[k], peer);
    }
}

double microseconds(Solve solve, const Question& question, std::vector<Answer>& answers) {
    auto start = std::chrono::steady_clock::now();
    answers = solve(question.held, question.assumed);
    return std::chrono::duration<double, std::micro>(std::chrono::steady_clock::now() - start).count();
}

// Total time of each solver over a family, in turn on each list.
struct Row {
    double ours = 0, pico = 0, mini = 0, longest = 0;
    size_t lists = 0, questions = 0, yes = 0;

    void add(const Question& question) {
        std::vector<Answer> a, b, c;
        double time = microseconds(propagating, question, a);
        ours += time;
        longest = std::max(longest, time);
        pico += microseconds(picosat, question, b);
        mini += microseconds(minisat, question, c);
        compare(question, a, "propagating", b, "picosat");
        compare(question, a, "propagating", c, "minisat");
        lists++;
        questions += question.assumed.size();
        for (const Answer& answer : a) yes += answer.yes ? 1 : 0;
    }

    void print(const char* name) const {
        std::printf("| %-34s | %6zu | %5.0f%% | %10.1f | %10.1f | %10.1f | %7.2f | %7.2f |\n", name, questions, 100.0 * yes / questions,
                    ours / questions, pico / questions, mini / questions, ours / pico, ours / mini);
        std::fflush(stdout);
    }
};

void table() {
    std::printf("| %-34s | %6s | %6s | %10s | %10s | %10s | %7s | %7s |\n", "family", "asked", "yes", "ours us", "picosat us", "minisat us", "/pico", "/mini");
    std::printf("|------------------------------------|-------:|-------:|-----------:|-----------:|-----------:|--------:|--------:|\n");
    char name[64];
    const struct { unsigned variables, lists; } sizes[] = {{20, 1000}, {40, 1000}, {60, 400}, {80, 100}, {100, 30}, {128, 6}};
    for (double ratio : {3.0, 4.26, 6.0})
        for (auto [variables, lists] : sizes) {
            Row row;
            Random random(variables * 100 + (unsigned)(ratio * 10));
            for (unsigned k = 0; k < lists; k++) row.add({random3(random, 0, variables, (unsigned)(variables * ratio)), {{}}});
            std::snprintf(name, sizeof name, "random 3-SAT, %u at %.2f", variables, ratio);
            row.print(name);
        }
    for (unsigned holes = 4; holes <= 7; holes++) {
        Row row;
        for (unsigned k = 0; k < (holes < 7 ? 50u : 5u); k++) row.add({pigeonhole(0, holes), {{}}});
        std::snprintf(name, sizeof name, "pigeonhole, %u holes", holes);
        row.print(name);
    }
    double alone = 0;
    for (unsigned variables : {0u, 20u, 40u, 60u}) {
        Row row;
        Random random(7);
        for (unsigned k = 0; k < 200; k++) row.add({unrelated(random, variables), {{}}});
        std::snprintf(name, sizeof name, "core with %u unrelated variables", variables);
        row.print(name);
        if (variables == 0) alone = row.ours;
        else std::printf("| %34s | %6s | %6s | %10.2f |\n", "times the core alone", "", "", row.ours / alone);
    }
    Row single, many;
    Random random(11);
    for (unsigned k = 0; k < 50; k++) {
        Question question = transition(random, 30);
        many.add(question);
        for (const Clause& assumed : question.assumed) single.add({question.held, {assumed}});
    }
    single.print("transition, solver made for each");
    many.print("transition, 30 questions a solver");
    std::printf("longest transition question, with making the solver and adding 1,000 clauses: %.0f us\n", single.longest);
}

void differ(unsigned lists) {
    Random random(3);
    size_t asked = 0, yes = 0;
    for (unsigned k = 0; k < lists; k++) {
        Question question = small(random);
        std::vector<Answer> a = propagating(question.held, question.assumed), b = counting(question.held, question.assumed);
        std::vector<Answer> c = picosat(question.held, question.assumed);
        compare(question, a, "propagating", c, "picosat");
        compare(question, b, "counting", c, "picosat");
        for (const Answer& answer : a) asked++, yes += answer.yes ? 1 : 0;
    }
    std::printf("%u lists, %zu questions, %zu yes: propagating, counting and PicoSAT agree, every yes is checked\n", lists, asked, yes);
}

}  // namespace

int main(int argc, char** argv) {
    if (argc == 3 && std::strcmp(argv[1], "differ") == 0) differ((unsigned)std::atoi(argv[2]));
    else table();
}
