#include "circuits.h"

#include <algorithm>
#include <cstdio>
#include <cstdlib>

Signal Circuit::add(Node node) {
    nodes.push_back(node);
    return {2 * (unsigned)(nodes.size() - 1)};
}

Signal Circuit::relay() {
    Signal signal = add({Node::RELAY, (unsigned)relays.size(), {}, {}});
    relays.push_back(signal.node());
    after.push_back(signal);
    return signal;
}

Signal Circuit::input() {
    Signal signal = add({Node::INPUT, (unsigned)inputs.size(), {}, {}});
    inputs.push_back(signal.node());
    return signal;
}

Signal Circuit::both(Signal a, Signal b) {
    if (a.code > b.code) std::swap(a, b);
    if (a.code == 0 || a.code == (b.code ^ 1)) return {0};
    if (a.code == 1 || a.code == b.code) return b;
    auto found = gates.find({a.code, b.code});
    if (found != gates.end()) return {found->second};
    Signal signal = add({Node::GATE, 0, a, b});
    gates[{a.code, b.code}] = signal.code;
    return signal;
}

Signal Circuit::all(const std::vector<Signal>& signals) {
    Signal value{1};
    for (Signal signal : signals) value = both(value, signal);
    return value;
}

Signal Circuit::any(const std::vector<Signal>& signals) {
    Signal value{0};
    for (Signal signal : signals) value = either(value, signal);
    return value;
}

std::vector<Signal> Circuit::many_relays(unsigned count) {
    std::vector<Signal> made;
    while (made.size() < count) made.push_back(relay());
    return made;
}

std::vector<Signal> Circuit::many_inputs(unsigned count) {
    std::vector<Signal> made;
    while (made.size() < count) made.push_back(input());
    return made;
}

void Circuit::start_at(uint32_t state) {
    for (unsigned k = 0; k < relays.size(); k++) start.push_back({literal(k, (state >> k & 1) == 0)});
}

Clause Circuit::denied(const std::vector<Signal>& values) const {
    Clause clause;
    for (Signal signal : values) clause.push_back(literal(nodes[signal.node()].number, !signal.negated()));
    std::sort(clause.begin(), clause.end());
    return clause;
}

void Circuit::evaluate(uint32_t state, const std::vector<uint64_t>& words, std::vector<uint64_t>& values) const {
    values.resize(nodes.size());
    for (size_t k = 0; k < nodes.size(); k++) {
        const Node& node = nodes[k];
        if (node.kind == Node::NEVER) values[k] = 0;
        if (node.kind == Node::RELAY) values[k] = (state >> node.number & 1) == 1 ? ~0ull : 0;
        if (node.kind == Node::INPUT) values[k] = words[node.number];
        if (node.kind == Node::GATE) values[k] = value(values, node.left) & value(values, node.right);
    }
}

namespace {

// Tables over six places: bit r is the value in row r, in which place k has the value of bit k of r.
const unsigned WIDTH = 6;
const uint64_t PLACE_ON[WIDTH] = {0xAAAAAAAAAAAAAAAA, 0xCCCCCCCCCCCCCCCC, 0xF0F0F0F0F0F0F0F0, 0xFF00FF00FF00FF00, 0xFFFF0000FFFF0000, 0xFFFFFFFF00000000};

uint64_t where_off(uint64_t table, unsigned place) {
    uint64_t half = table & ~PLACE_ON[place];
    return half | half << (1u << place);
}
uint64_t where_on(uint64_t table, unsigned place) {
    uint64_t half = table & PLACE_ON[place];
    return half | half >> (1u << place);
}

// Which places have to be on and which off.
struct Cube {
    unsigned on = 0, off = 0;
};

// Adds cubes, none of which can be left out, that have all rows of `least` and only rows of `most`, and answers their rows.
uint64_t cover(uint64_t least, uint64_t most, unsigned places, std::vector<Cube>& cubes) {
    if (least == 0) return 0;
    if (most == ~0ull) {
        cubes.push_back({});
        return ~0ull;
    }
    unsigned place = places - 1;
    uint64_t least_off = where_off(least, place), least_on = where_on(least, place), most_off = where_off(most, place), most_on = where_on(most, place);
    if (least_off == least_on && most_off == most_on) return cover(least, most, place, cubes);
    size_t first = cubes.size();
    uint64_t off = cover(least_off & ~most_on, most_off, place, cubes);
    for (size_t k = first; k < cubes.size(); k++) cubes[k].off |= 1u << place;
    first = cubes.size();
    uint64_t on = cover(least_on & ~most_off, most_on, place, cubes);
    for (size_t k = first; k < cubes.size(); k++) cubes[k].on |= 1u << place;
    uint64_t shared = cover((least_off & ~off) | (least_on & ~on), most_off & most_on, place, cubes);
    return (off & ~PLACE_ON[place]) | (on & PLACE_ON[place]) | shared;
}

// A node as a function of at most six others.
struct Function {
    std::vector<unsigned> of;  // their nodes, rising
    uint64_t table = 0;
};

std::vector<unsigned> merged(const std::vector<unsigned>& a, const std::vector<unsigned>& b) {
    std::vector<unsigned> nodes;
    std::set_union(a.begin(), a.end(), b.begin(), b.end(), std::back_inserter(nodes));
    return nodes;
}

uint64_t table_over(const Function& function, const std::vector<unsigned>& nodes) {
    uint64_t table = 0;
    for (unsigned row = 0; row < 64; row++) {
        unsigned old = 0;
        for (unsigned k = 0; k < function.of.size(); k++) {
            size_t place = (size_t)(std::find(nodes.begin(), nodes.end(), function.of[k]) - nodes.begin());
            old |= (row >> place & 1) << k;
        }
        table |= (function.table >> old & 1) << row;
    }
    return table;
}

class Telling {
    const Circuit& circuit;
    std::vector<Function> functions;  // of the nodes
    std::map<unsigned, unsigned> variables;
    Told& result;

    void define(unsigned variable, const Function& function, bool negated) {
        uint64_t table = negated ? ~function.table : function.table;
        for (bool on : {true, false}) {
            std::vector<Cube> cubes;
            cover(on ? table : ~table, on ? table : ~table, WIDTH, cubes);
            for (const Cube& cube : cubes) {
                Clause clause{literal(variable, !on)};
                for (unsigned k = 0; k < function.of.size(); k++)
                    if ((cube.on | cube.off) >> k & 1) clause.push_back(literal(variables[function.of[k]], (cube.on >> k & 1) == 1));
                std::sort(clause.begin(), clause.end());
                result.system.step.push_back(clause);
            }
        }
    }
    // Gives the gate an input of its own.
    void name(unsigned node) {
        unsigned variable = 64 + (unsigned)(circuit.inputs.size() + result.named.size());
        variables[node] = variable;
        result.named.push_back(node);
        define(variable, functions[node], false);
        functions[node] = {{node}, PLACE_ON[0]};
    }

public:
    Telling(const Circuit& circuit, Told& result) : circuit(circuit), result(result) {
        System& system = result.system;
        for (unsigned node = 0; node < circuit.nodes.size(); node++) {
            const Node& is = circuit.nodes[node];
            functions.push_back({});
            if (is.kind == Node::RELAY || is.kind == Node::INPUT) {
                variables[node] = is.number + (is.kind == Node::INPUT ? 64 : 0);
                functions[node] = {{node}, PLACE_ON[0]};
            }
            if (is.kind == Node::GATE) {
                unsigned left = is.left.node(), right = is.right.node();
                if (functions[left].of.size() < functions[right].of.size()) std::swap(left, right);
                for (unsigned wide : {left, right})
                    if (merged(functions[left].of, functions[right].of).size() > WIDTH) name(wide);
                std::vector<unsigned> of = merged(functions[left].of, functions[right].of);
                auto table = [&](Signal signal) { return table_over(functions[signal.node()], of) ^ (signal.negated() ? ~0ull : 0); };
                functions[node] = {of, table(is.left) & table(is.right)};
            }
        }
        for (unsigned k = 0; k < circuit.relays.size(); k++) define(32 + k, functions[circuit.after[k].node()], circuit.after[k].negated());
        system.relays = (unsigned)circuit.relays.size();
        system.input_count = (unsigned)(circuit.inputs.size() + result.named.size());
        system.start = circuit.start;
        system.safety = circuit.safety;
    }
};

// Whether the clauses are true, of which `variables` has the values.
bool are_true(const Clauses& clauses, const std::vector<bool>& variables) {
    return std::all_of(clauses.begin(), clauses.end(), [&](const Clause& clause) {
        return std::any_of(clause.begin(), clause.end(), [&](uint8_t literal) { return variables[literal / 2] != ((literal & 1) != 0); });
    });
}

bool meets(const Clauses& clauses, uint32_t state) {
    return std::all_of(clauses.begin(), clauses.end(), [&](const Clause& clause) { return is_true(clause, state); });
}

Signal signal_of(Circuit& circuit, const Clauses& clauses, const std::vector<Signal>& relays) {
    Signal value{1};
    for (const Clause& clause : clauses) {
        std::vector<Signal> literals;
        for (uint8_t literal : clause) literals.push_back((literal & 1) ? !relays[literal / 2] : relays[literal / 2]);
        value = circuit.both(value, circuit.any(literals));
    }
    return value;
}

void put_text(std::vector<uint8_t>& bytes, const std::string& text) { bytes.insert(bytes.end(), text.begin(), text.end()); }

void put_difference(std::vector<uint8_t>& bytes, unsigned difference) {
    for (; difference >= 128; difference >>= 7) bytes.push_back((uint8_t)(difference | 128));
    bytes.push_back((uint8_t)difference);
}

}  // namespace

Told told(const Circuit& circuit) {
    Told result{};
    Telling(circuit, result);
    return result;
}

void check_told(Random& random, const Circuit& circuit, const Told& told, const char* name) {
    auto fail = [&](const char* what) {
        std::fprintf(stderr, "%s: %s\n", name, what);
        std::exit(1);
    };
    const System& system = told.system;
    if (system.relays > 32 || system.input_count > 64) fail("too many relays or inputs");
    if (system.start.size() > 256 || system.step.size() > 1024 || system.safety.size() > 256) fail("too many clauses");
    if (bytes_of(system).size() > 32768) fail("too many bytes");
    for (const Clauses* list : {&system.start, &system.step, &system.safety})
        for (const Clause& clause : *list)
            for (size_t k = 1; k < clause.size(); k++)
                if (clause[k - 1] / 2 >= clause[k] / 2) fail("the variables of a clause do not rise");
    for (unsigned round = 0; round < 100; round++) {
        uint32_t state = (uint32_t)random.next();
        std::vector<uint64_t> words, values;
        for (size_t k = 0; k < circuit.inputs.size(); k++) words.push_back(random.coin() ? ~0ull : 0);
        circuit.evaluate(state, words, values);
        std::vector<bool> variables(128);
        std::vector<unsigned> defined;
        for (unsigned k = 0; k < system.relays; k++) {
            variables[k] = (state >> k & 1) == 1;
            variables[32 + k] = (Circuit::value(values, circuit.after[k]) & 1) == 1;
            defined.push_back(32 + k);
        }
        for (unsigned k = 0; k < circuit.inputs.size(); k++) variables[64 + k] = (words[k] & 1) == 1;
        for (unsigned k = 0; k < told.named.size(); k++) {
            defined.push_back(64 + (unsigned)circuit.inputs.size() + k);
            variables[defined.back()] = (values[told.named[k]] & 1) == 1;
        }
        if (!are_true(system.step, variables)) fail("the circuit makes a step that the case has not");
        for (unsigned variable : defined) {
            variables[variable] = !variables[variable];
            if (are_true(system.step, variables)) fail("the case has a step that the circuit does not make");
            variables[variable] = !variables[variable];
        }
    }
}

std::vector<uint8_t> aiger(const Circuit& circuit) {
    Circuit file;
    size_t count = circuit.relays.size();
    uint32_t start = 0;
    for (const Clause& clause : circuit.start)
        if (clause.size() == 1 && (clause[0] & 1) == 0) start |= 1u << clause[0] / 2;
    bool is_single = circuit.start.size() == count;
    for (const Clause& clause : circuit.start) is_single = is_single && clause.size() == 1;
    std::vector<Signal> inputs = file.many_inputs((unsigned)circuit.inputs.size()), kept = file.many_relays((unsigned)count), relays, values;
    Signal started{0}, begun{0}, right{1};
    if (is_single) {
        for (unsigned k = 0; k < count; k++) relays.push_back(start >> k & 1 ? !kept[k] : kept[k]);
    } else {
        started = file.relay(), begun = file.relay();
        for (Signal relay : kept) relays.push_back(file.chosen(started, relay, file.input()));
        right = file.chosen(started, begun, signal_of(file, circuit.start, relays));
        file.become(started, {1});
        file.become(begun, right);
    }
    for (const Node& node : circuit.nodes) {
        auto copied = [&](Signal signal) { return signal.negated() ? !values[signal.node()] : values[signal.node()]; };
        if (node.kind == Node::NEVER) values.push_back({0});
        if (node.kind == Node::RELAY) values.push_back(relays[node.number]);
        if (node.kind == Node::INPUT) values.push_back(inputs[node.number]);
        if (node.kind == Node::GATE) values.push_back(file.both(copied(node.left), copied(node.right)));
    }
    for (unsigned k = 0; k < count; k++) {
        Signal value{values[circuit.after[k].node()].code ^ (circuit.after[k].negated() ? 1 : 0)};
        file.become(kept[k], is_single && (start >> k & 1) ? !value : value);
    }
    Signal broken = file.both(right, !signal_of(file, circuit.safety, relays));

    // in the file inputs come first, then relays, then gates
    std::vector<unsigned> numbers(file.nodes.size());
    unsigned number = 0;
    for (unsigned node : file.inputs) numbers[node] = ++number;
    for (unsigned node : file.relays) numbers[node] = ++number;
    for (unsigned node = 0; node < file.nodes.size(); node++)
        if (file.nodes[node].kind == Node::GATE) numbers[node] = ++number;
    auto code = [&](Signal signal) { return 2 * numbers[signal.node()] + (signal.negated() ? 1 : 0); };
    std::vector<uint8_t> bytes;
    size_t before_gates = file.inputs.size() + file.relays.size();
    put_text(bytes, "aig " + std::to_string(number) + " " + std::to_string(file.inputs.size()) + " " + std::to_string(file.relays.size()) + " 1 " +
                        std::to_string(number - before_gates) + "\n");
    for (Signal after : file.after) put_text(bytes, std::to_string(code(after)) + "\n");
    put_text(bytes, std::to_string(code(broken)) + "\n");
    for (unsigned node = 0; node < file.nodes.size(); node++) {
        if (file.nodes[node].kind != Node::GATE) continue;
        unsigned left = code(file.nodes[node].left), right = code(file.nodes[node].right);
        if (left < right) std::swap(left, right);
        put_difference(bytes, 2 * numbers[node] - left);
        put_difference(bytes, left - right);
    }
    return bytes;
}

Searched searched(const Circuit& circuit) {
    const size_t MOST_WORK = 400000000;
    Searched result;
    size_t count = circuit.relays.size(), inputs = circuit.inputs.size(), work = 0;
    if (count > 20 || inputs > 20) return result;
    size_t rounds = inputs > WIDTH ? (size_t)1 << (inputs - WIDTH) : 1;
    std::vector<bool> seen((size_t)1 << count);
    std::vector<uint32_t> wave, next;
    auto see = [&](uint32_t state, std::vector<uint32_t>& states) {
        if (seen[state]) return;
        seen[state] = true;
        result.states++;
        states.push_back(state);
        result.broken = result.broken || !meets(circuit.safety, state);
    };
    for (uint32_t state = 0; state < seen.size(); state++)
        if (meets(circuit.start, state)) see(state, wave);
    std::vector<uint64_t> words(inputs), values;
    while (!result.broken && !wave.empty()) {
        for (uint32_t state : wave)
            for (size_t round = 0; round < rounds; round++) {
                work += circuit.nodes.size();
                if (work > MOST_WORK) return result;
                for (size_t k = 0; k < inputs; k++) words[k] = k < WIDTH ? PLACE_ON[k] : (round >> (k - WIDTH) & 1) == 1 ? ~0ull : 0;
                circuit.evaluate(state, words, values);
                std::vector<uint32_t> to(64);
                for (size_t k = 0; k < count; k++) {
                    uint64_t value = Circuit::value(values, circuit.after[k]);
                    for (unsigned row = 0; row < 64; row++) to[row] |= (uint32_t)(value >> row & 1) << k;
                }
                for (uint32_t reached : to) see(reached, next);
            }
        result.steps++;
        wave.swap(next);
        next.clear();
    }
    result.done = true;
    return result;
}

Circuit counter(unsigned bits, unsigned limit, unsigned value) {
    Circuit circuit;
    std::vector<Signal> relays = circuit.many_relays(bits), at_last, at_value;
    Signal counts = circuit.input(), carry = counts;
    for (unsigned k = 0; k < bits; k++) {
        at_last.push_back((limit - 1) >> k & 1 ? relays[k] : !relays[k]);
        at_value.push_back(value >> k & 1 ? relays[k] : !relays[k]);
    }
    Signal over = circuit.both(counts, circuit.all(at_last));
    for (Signal relay : relays) {
        circuit.become(relay, circuit.both(circuit.differ(relay, carry), !over));
        carry = circuit.both(carry, relay);
    }
    circuit.start_at(0);
    circuit.forbid(at_value);
    return circuit;
}

Circuit johnson(unsigned count, bool reachable) {
    Circuit circuit;
    std::vector<Signal> relays = circuit.many_relays(count);
    Signal moves = circuit.input();
    for (unsigned k = 0; k < count; k++) circuit.become(relays[k], circuit.chosen(moves, k == 0 ? !relays[count - 1] : relays[k - 1], relays[k]));
    circuit.start_at(0);
    if (reachable) circuit.forbid({!relays[0], relays[count - 1]});
    else circuit.forbid({!relays[0], relays[1], !relays[2]});
    return circuit;
}

Circuit gray(unsigned bits) {
    Circuit circuit;
    std::vector<Signal> relays = circuit.many_relays(bits), none;
    Signal odd = circuit.relay(), counts = circuit.input(), below{1};
    for (unsigned k = 0; k < bits; k++) {
        // relay 0 changes when `odd` is off, else the one after the lowest that is on, or the last where that is the last
        Signal changes = k == 0 ? !odd : circuit.all({odd, k + 1 == bits ? Signal{1} : relays[k - 1], below});
        if (k > 0 && k + 1 < bits) below = circuit.both(below, !relays[k - 1]);
        circuit.become(relays[k], circuit.differ(relays[k], circuit.both(counts, changes)));
        none.push_back(!relays[k]);
    }
    circuit.become(odd, circuit.differ(odd, counts));
    none.push_back(odd);
    circuit.start_at(0);
    circuit.forbid(none);
    return circuit;
}

Circuit shifted(unsigned count) {
    Circuit circuit;
    std::vector<Signal> relays = circuit.many_relays(count);
    Signal moves = circuit.input();
    for (unsigned k = 0; k < count; k++) circuit.become(relays[k], circuit.chosen(moves, relays[(k + count - 1) % count], relays[k]));
    circuit.start_at(1);
    circuit.forbid({relays[0], relays[1]});
    return circuit;
}

Circuit handed(unsigned count) {
    Circuit circuit;
    std::vector<Signal> relays = circuit.many_relays(count), hands = circuit.many_inputs(count);
    for (unsigned k = 0; k < count; k++) {
        unsigned before = (k + count - 1) % count;
        circuit.become(relays[k], circuit.either(circuit.both(relays[k], !hands[k]), circuit.both(relays[before], hands[before])));
    }
    circuit.start_at(1);
    for (unsigned k = 0; k < count; k++) circuit.forbid({relays[k], relays[(k + 1) % count]});
    return circuit;
}

Circuit trains(unsigned count, bool careless) {
    Circuit circuit;
    std::vector<Signal> asking = circuit.many_relays(count), inside = circuit.many_relays(count), turns = circuit.many_relays(count);
    std::vector<Signal> asks = circuit.many_inputs(count), leaves = circuit.many_inputs(count);
    Signal passes = circuit.input(), free = !circuit.any(inside);
    uint32_t start = 1u << 2 * count;
    if (careless) {
        Signal was_free = circuit.relay();
        circuit.become(was_free, free);
        free = was_free;
        start |= 1u << 3 * count;
    }
    for (unsigned k = 0; k < count; k++) {
        Signal enters = circuit.all({free, asking[k], turns[k]});
        circuit.become(asking[k], circuit.both(!enters, circuit.either(asking[k], asks[k])));
        circuit.become(inside[k], circuit.either(enters, circuit.both(inside[k], !leaves[k])));
        circuit.become(turns[k], circuit.chosen(passes, turns[(k + count - 1) % count], turns[k]));
    }
    circuit.start_at(start);
    for (unsigned k = 0; k < count; k++)
        for (unsigned j = 0; j < k; j++) circuit.forbid({inside[j], inside[k]});
    return circuit;
}

Circuit sections(unsigned count, bool careless) {
    Circuit circuit;
    std::vector<Signal> up = circuit.many_relays(count), down = circuit.many_relays(count), locks = circuit.many_relays(count);
    std::vector<Signal> ups = circuit.many_inputs(count - 1), downs = circuit.many_inputs(count - 1), unlocks = circuit.many_inputs(count);
    std::vector<Signal> enters_up, enters_down;
    for (unsigned k = 0; k < count; k++) {
        enters_up.push_back(k == 0 ? Signal{0} : circuit.all({ups[k - 1], up[k - 1], !locks[k]}));
        Signal enters = k + 1 == count ? Signal{0} : circuit.all({downs[k], down[k + 1], !locks[k]});
        enters_down.push_back(careless ? enters : circuit.both(enters, !enters_up[k]));
    }
    for (unsigned k = 0; k < count; k++) {
        Signal leaves_up = k + 1 == count ? Signal{0} : enters_up[k + 1], leaves_down = k == 0 ? Signal{0} : enters_down[k - 1];
        circuit.become(up[k], circuit.either(enters_up[k], circuit.both(up[k], !leaves_up)));
        circuit.become(down[k], circuit.either(enters_down[k], circuit.both(down[k], !leaves_down)));
        Signal opens = circuit.all({unlocks[k], !up[k], !down[k]});
        circuit.become(locks[k], circuit.any({enters_up[k], enters_down[k], circuit.both(locks[k], !opens)}));
        circuit.forbid({up[k], down[k]});
    }
    circuit.start_at(1u | 1u << (2 * count - 1) | 1u << 2 * count | 1u << (3 * count - 1));
    return circuit;
}

Circuit seven() {
    Circuit circuit;
    std::vector<Signal> relays = circuit.many_relays(7);
    Signal x0 = relays[0], x1 = relays[1], x = relays[2], y0 = relays[3], y1 = relays[4], y = relays[5], z = relays[6];
    circuit.become(x0, !x0);
    circuit.become(x1, !x1);
    circuit.become(x, circuit.either(x0, x1));
    circuit.become(y0, circuit.both(x, !y0));
    circuit.become(y1, circuit.both(x, !y1));
    circuit.become(y, circuit.either(y0, y1));
    circuit.become(z, circuit.both(x, y));
    for (auto pair : {std::make_pair(x0, x1), std::make_pair(y0, y1)}) {
        circuit.begin_without({pair.first, pair.second});
        circuit.begin_without({!pair.first, !pair.second});
    }
    for (Signal on : {x, y, z}) circuit.begin_without({!on});
    circuit.forbid({!z});
    return circuit;
}

Circuit gates(Random& random, unsigned count, unsigned inputs, unsigned gate_count, bool cubed) {
    Circuit circuit;
    std::vector<Signal> relays = circuit.many_relays(count), signals = circuit.many_inputs(inputs);
    signals.insert(signals.end(), relays.begin(), relays.end());
    auto drawn = [&](size_t first = 0) {
        Signal signal = signals[first + random.below((unsigned)(signals.size() - first))];
        return random.coin() ? !signal : signal;
    };
    for (unsigned k = 0; k < gate_count; k++) {
        Signal a = drawn(), b = drawn();
        signals.push_back(random.below(4) == 0 ? circuit.differ(a, b) : circuit.both(a, b));
    }
    for (Signal relay : relays) circuit.become(relay, drawn(inputs));
    uint32_t start = (uint32_t)random.next();
    for (unsigned k = 0; k < count; k++)
        if (!cubed || random.coin()) circuit.start.push_back({literal(k, (start >> k & 1) == 0)});
    while (circuit.safety.size() < 2) {
        std::vector<Signal> values;
        for (Signal relay : relays)
            if (random.below(count) < 4) values.push_back(random.coin() ? !relay : relay);
        if (values.size() > 1) circuit.forbid(values);
    }
    return circuit;
}
