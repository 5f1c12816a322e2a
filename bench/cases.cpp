#include "cases.h"

#include <algorithm>

namespace {

const unsigned INPUTS = 64, STEPS = 1024;
// So many relays of a paired system are never turned on.
const unsigned LASTING = 8;

unsigned after(unsigned relay) { return 32 + relay; }
unsigned drawn_source(Random& random, unsigned relays) { return random.coin() ? random.below(relays) : 64 + random.below(INPUTS); }
bool is_on(uint32_t state, unsigned relay) { return (state >> relay & 1) != 0; }

// Brings the literals in the order of their variables and says whether each variable stands once.
bool put_in_order(Clause& clause) {
    std::sort(clause.begin(), clause.end());
    for (size_t k = 1; k < clause.size(); k++)
        if (clause[k] / 2 == clause[k - 1] / 2) return false;
    return true;
}

void add(Clauses& list, Clause clause) {
    if (put_in_order(clause)) list.push_back(clause);
}

// Further different relays or inputs, up to so many in all.
std::vector<unsigned> sources(Random& random, unsigned relays, unsigned count, std::vector<unsigned> chosen = {}) {
    while (chosen.size() < count) {
        unsigned source = drawn_source(random, relays);
        if (std::find(chosen.begin(), chosen.end(), source) == chosen.end()) chosen.push_back(source);
    }
    return chosen;
}

System drawn(Random& random, unsigned relays) {
    System system{relays};
    system.before = (uint32_t)random.next();
    system.inputs = random.next() << 32 ^ random.next();
    return system;
}

// The value of a relay or input in the step from the state before.
bool value(const System& system, unsigned source) {
    return source < 32 ? is_on(system.before, source) : (system.inputs >> (source - 64) & 1) != 0;
}

// The relay after a step is a function of the sources, of which a table has a bit for each row of values.
void add_function(System& system, unsigned relay, const std::vector<unsigned>& from, unsigned table) {
    for (unsigned row = 0; row < 1u << from.size(); row++) {
        bool met = true, on = (table >> row & 1) == 1;
        Clause clause{literal(after(relay), !on)};
        for (size_t k = 0; k < from.size(); k++) {
            bool wanted = (row >> k & 1) == 1;
            clause.push_back(literal(from[k], wanted));
            met = met && value(system, from[k]) == wanted;
        }
        add(system.step, clause);
        if (met && on) system.reached |= 1u << relay;
    }
}

// Adds what else is known of relays and inputs before the step. Each clause has a literal that the system's inputs make
// true, so that every state still has a step.
void fill(Random& random, System& system) {
    while (system.step.size() < STEPS) {
        unsigned input = 64 + random.below(INPUTS), length = 4 + random.below(3);
        Clause clause{literal(input, !value(system, input))};
        while (clause.size() < length) clause.push_back(literal(drawn_source(random, system.relays), random.coin()));
        add(system.step, clause);
    }
}

// Adds drawn clauses of two literals, true in the state before, a quarter as many as there are relays.
void add_safety(Random& random, System& system) {
    while (system.safety.size() < system.relays / 4) {
        Clause clause{literal(random.below(system.relays), random.coin()), literal(random.below(system.relays), random.coin())};
        if (is_true(clause, system.before)) add(system.safety, clause);
    }
}

void put_number(std::vector<uint8_t>& bytes, size_t number) {
    bytes.push_back((uint8_t)(number & 0xff));
    bytes.push_back((uint8_t)(number >> 8));
}

// Tables over two sources, and over a relay's own value, which is the lowest bit of a row, and two others.
const unsigned BOTH_ON = 0b1000, ONE_ON = 0b1110;
const unsigned IF_FIRST_ON = 0b10001000, OR_FIRST_ON = 0b11101110, SECOND_IF_FIRST_ON = 0b11100010;

}  // namespace

std::vector<uint8_t> bytes_of(const System& system) {
    std::vector<uint8_t> start = spelled(system.start), step = spelled(system.step), safety = spelled(system.safety), bytes;
    size_t counts[] = {system.start.size(), system.step.size(), system.safety.size()};
    size_t places[] = {18, 18 + start.size(), 18 + start.size() + step.size(), 18 + start.size() + step.size() + safety.size()};
    put_number(bytes, system.relays);
    put_number(bytes, system.input_count);
    for (size_t number : counts) put_number(bytes, number);
    for (size_t number : places) put_number(bytes, number);
    for (const auto& section : {start, step, safety}) bytes.insert(bytes.end(), section.begin(), section.end());
    return bytes;
}

bool is_true(const Clause& clause, uint32_t state) {
    return std::any_of(clause.begin(), clause.end(), [&](uint8_t literal) { return is_on(state, literal / 2) != ((literal & 1) != 0); });
}

namespace {

// A case at a drawn state: what `add_relay` says of each relay, safety clauses, and what else is known up to the number.
template <typename AddRelay>
System made(Random& random, unsigned relays, AddRelay add_relay) {
    System system = drawn(random, relays);
    system.state = (uint32_t)random.next();
    for (unsigned relay = 0; relay < relays; relay++) add_relay(system, relay);
    add_safety(random, system);
    fill(random, system);
    return system;
}

// The same case at a state that a step leads to.
System at_reached(System system) {
    system.state = system.reached;
    return system;
}

}  // namespace

System functions(Random& random, unsigned relays) {
    return made(random, relays, [&](System& system, unsigned relay) { add_function(system, relay, sources(random, relays, 3), random.below(256)); });
}

System functions_reached(Random& random, unsigned relays) { return at_reached(functions(random, relays)); }

System latches(Random& random, unsigned relays) {
    const unsigned tables[] = {IF_FIRST_ON, OR_FIRST_ON, SECOND_IF_FIRST_ON};
    return made(random, relays, [&](System& system, unsigned relay) {
        add_function(system, relay, sources(random, relays, 3, {relay}), tables[random.below(3)]);
    });
}

System latches_reached(Random& random, unsigned relays) { return at_reached(latches(random, relays)); }

System countdown(Random& random, unsigned relays) {
    System system = drawn(random, relays);
    system.state = (uint32_t)random.next();
    std::vector<unsigned> order;
    for (unsigned relay = 0; relay < relays; relay++) order.insert(order.begin() + random.below(relay + 1), relay);
    // relay order[k] is away from its state at rest where more than k steps are left
    auto away = [&](unsigned k, bool negated) { return literal(order[k], is_on(system.state, order[k]) != negated); };
    auto away_after = [&](unsigned k, bool negated) { return (uint8_t)(away(k, negated) + 64); };
    for (unsigned k = 0; k + 1 < relays; k++) {
        add(system.safety, {away(k, false), away(k + 1, true)});
        add(system.step, {away_after(k, false), away(k + 1, true)});
        add(system.step, {away_after(k, true), away(k + 1, false)});
    }
    system.step.push_back({away_after(relays - 1, true)});
    fill(random, system);
    return system;
}

System paired(Random& random) {
    System system = drawn(random, 32);
    system.before = 0;
    for (unsigned relay = 0; relay < LASTING; relay++) {
        unsigned kept = relay < LASTING / 2 ? relay : random.below(relay);
        add_function(system, relay, sources(random, 32, 2, {kept}), BOTH_ON);
    }
    for (unsigned relay = LASTING; relay < 32; relay += 2) {
        std::vector<unsigned> from = sources(random, 32, 2);
        add_function(system, relay, from, BOTH_ON);
        add_function(system, relay + 1, from, ONE_ON);
    }
    for (unsigned relay = 0; relay < 32; relay++) system.start.push_back({literal(relay, true)});
    add_safety(random, system);
    fill(random, system);
    return system;
}

Clauses candidates(Random& random, const System& system, unsigned count) {
    Clauses list;
    while (list.size() < count) {
        Clause clause;
        unsigned kind = (unsigned)list.size() % 4, pair = LASTING + 2 * random.below((32 - LASTING) / 2);
        if (kind == 2) clause = {literal(random.below(LASTING), true)};
        if (kind == 3) clause = {literal(pair, true), literal(pair + 1, false)};
        unsigned length = kind < 2 ? 1 + random.below(3) : (unsigned)clause.size() + random.below(2);
        while (clause.size() < length) clause.push_back(literal(random.below(system.relays), random.coin()));
        if (put_in_order(clause) && is_true(clause, system.state)) list.push_back(clause);
    }
    return list;
}
