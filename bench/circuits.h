// Circuits of relays, inputs and gates, and what they are turned into: a case, and a file for a peer that judges circuits.
#pragma once
#include <map>
#include <string>

#include "cases.h"

// Twice a node, plus 1 if negated. Node 0 is never on.
struct Signal {
    unsigned code = 0;
    unsigned node() const { return code / 2; }
    bool negated() const { return (code & 1) != 0; }
    Signal operator!() const { return {code ^ 1}; }
};

struct Node {
    enum Kind { NEVER, RELAY, INPUT, GATE } kind;
    unsigned number;     // of the relay or input
    Signal left, right;  // a gate is on where both are, and comes after them
};

class Circuit {
    std::map<std::pair<unsigned, unsigned>, unsigned> gates;

    Signal add(Node node);

public:
    std::vector<Node> nodes{{Node::NEVER, 0, {}, {}}};
    std::vector<unsigned> relays, inputs;  // their nodes
    std::vector<Signal> after;             // what each relay becomes
    Clauses start, safety;                 // over relays, with their numbers as variables

    Signal relay();  // keeps its value where nothing else is said
    Signal input();
    Signal both(Signal a, Signal b);
    Signal either(Signal a, Signal b) { return !both(!a, !b); }
    Signal differ(Signal a, Signal b) { return either(both(a, !b), both(!a, b)); }
    Signal chosen(Signal which, Signal on, Signal off) { return either(both(which, on), both(!which, off)); }
    Signal all(const std::vector<Signal>& signals);
    Signal any(const std::vector<Signal>& signals);

    std::vector<Signal> many_relays(unsigned count);
    std::vector<Signal> many_inputs(unsigned count);
    void become(Signal relay, Signal value) { after[nodes[relay.node()].number] = value; }
    // The only start state.
    void start_at(uint32_t state);
    // These relays are never to have these values at once.
    void forbid(const std::vector<Signal>& values) { safety.push_back(denied(values)); }
    void begin_without(const std::vector<Signal>& values) { start.push_back(denied(values)); }
    Clause denied(const std::vector<Signal>& values) const;

    // The nodes in 64 steps at once from a state: bit k of an input is its value in the k-th of them.
    void evaluate(uint32_t state, const std::vector<uint64_t>& inputs, std::vector<uint64_t>& values) const;
    static uint64_t value(const std::vector<uint64_t>& values, Signal signal) { return values[signal.node()] ^ (signal.negated() ? ~0ull : 0); }
};

// The circuit as a case. A relay after the step, and each gate that is given an input of its own, is a function of at most six
// relays before the step and inputs; it is told by the clauses of the least cubes in which it is on, and of those in which it is off.
struct Told {
    System system;
    std::vector<unsigned> named;  // the gates that became inputs, which follow those of the circuit
};
Told told(const Circuit& circuit);
// Ends the program where the step clauses, over drawn states and inputs, do not say just what the circuit does.
void check_told(Random& random, const Circuit& circuit, const Told& told, const char* name);

// A binary AIGER file whose output is on in broken states. All relays of such a file start off: with one start state, relays that
// start on stand negated in it. With more, a further relay is off in the first step only, in which the relays are drawn by
// inputs of their own, and another one keeps whether that state was a start state: only then is the output ever on.
std::vector<uint8_t> aiger(const Circuit& circuit);

// All that can be reached, by breadth, where there are at most 20 relays and not too many inputs.
struct Searched {
    bool done = false, broken = false;
    size_t states = 0, steps = 0;  // reached ones, and steps to the first broken one
};
Searched searched(const Circuit& circuit);

// The families.
// Counts up to the limit and begins again, whenever an input is on; the value is not to be reached.
Circuit counter(unsigned bits, unsigned limit, unsigned value);
// The same over a ring of relays that is closed by a negation. Never one relay on between two that are off; or, where it can be
// reached, never the last on and the first off.
Circuit johnson(unsigned relays, bool reachable);
// Counts so that one relay changes at a time, told by a relay that changes each time which one. That relay is never on at zero.
Circuit gray(unsigned bits);
// One token moves round a ring; never two at relays 0 and 1.
Circuit shifted(unsigned relays);
// Each relay hands its token on whenever an input of its own is on; never two neighbours.
Circuit handed(unsigned relays);
// Trains ask for one section, which they get from an arbiter when it is free; never two there. A careless arbiter looks at
// whether it was free a step before.
Circuit trains(unsigned count, bool careless);
// Two trains move on a line of sections by inputs. A section is locked when one enters, and an input unlocks it when it is free;
// never both trains in one section. With careless locks both may enter at once.
Circuit sections(unsigned count, bool careless);
// Two pairs of relays that take turns, and a relay that is on where one of each pair was.
Circuit seven();
// Gates of drawn signals. With `cubed` only half of the relays have a value at the start.
Circuit gates(Random& random, unsigned relays, unsigned inputs, unsigned count, bool cubed);
