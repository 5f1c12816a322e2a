//! Systems of many shapes.

use crate::format::{MOST_BYTES, MOST_CLAUSES};
use crate::random::Random;
use crate::space::{has, members, Space, States};
use crate::system::{literal, literals, variable, Clause, System, AFTER, INPUT};
use crate::turn::seek;

/// A clause of these literals, ordered by variable, each variable once.
pub fn clause(mut literals: Vec<u8>) -> Clause {
    literals.sort_unstable();
    literals.dedup_by_key(|literal| variable(*literal));
    literals
}

/// The clause over relays that is false just where each relay of a set has the value that it has in a state.
pub fn denial(relays: usize, state: u32, set: u32) -> Clause {
    let inside = (0..relays).filter(|relay| set >> relay & 1 == 1);
    inside.map(|relay| literal(relay, state >> relay & 1 == 1)).collect()
}

/// A clause over relays with up to so many literals, seldom none.
pub fn over_relays(random: &mut Random, relays: usize, most: usize) -> Clause {
    let count = if random.chance(2) { 0 } else { random.between(1, most) };
    clause((0..count).map(|_| literal(random.below(relays), random.coin())).collect())
}

pub fn system(random: &mut Random) -> System {
    loop {
        let mut system = of_shape(random);
        if random.chance(4) {
            disturb(random, &mut system);
        }
        if fits(&system) && (random.chance(35) || !is_plain(&system)) {
            return system;
        }
    }
}

/// Whether there is nothing to find: an initial state is broken, or the safety clauses are inductive.
fn is_plain(system: &System) -> bool {
    Space::of(system).is_some_and(|space| space.initial & !space.safe != 0 || seek(&space, &[]).is_none())
}

fn fits(system: &System) -> bool {
    let lists = system.lists();
    let length: usize = 18 + lists.iter().map(|list| list.len() + literals(list)).sum::<usize>();
    length <= MOST_BYTES && lists.iter().zip(MOST_CLAUSES).all(|(list, most)| list.len() <= most)
}

fn of_shape(random: &mut Random) -> System {
    let relays = *random.pick(&[1, 2, 2, 3, 3, 3, 4, 4, 4, 4, 5, 5, 5, 6, 6]);
    let inputs = *random.pick(&[0, 0, 1, 1, 2, 3]);
    let mut system = System { relays, inputs, ..System::default() };
    match random.below(100) {
        0..=29 => functions(random, &mut system),
        30..=44 => sparse(random, &mut system),
        45..=64 => path(random, &mut system),
        65..=76 => latches(random, &mut system),
        77..=88 => counter(random, &mut system),
        89 if random.coin() => return long_counter(random),
        89 => sparse(random, &mut system),
        _ => return odd(random, system),
    }
    if system.start.is_empty() {
        start(random, &mut system);
    }
    safety(random, &mut system);
    // more inputs than occur
    if random.chance(10) {
        system.inputs = random.between(system.inputs, 64);
    }
    system
}

/// Each relay becomes a drawn function of up to three relays and inputs; now and then a clause of it is left out.
fn functions(random: &mut Random, system: &mut System) {
    let partial = random.chance(25);
    for relay in 0..system.relays {
        let mut read: Vec<usize> = (0..random.between(0, 3)).map(|_| before_or_input(random, system)).collect();
        read.sort_unstable();
        read.dedup();
        for values in 0..1u32 << read.len() {
            if partial && random.chance(15) {
                continue;
            }
            let mut literals: Vec<u8> = read.iter().enumerate().map(|(at, &variable)| literal(variable, values >> at & 1 == 1)).collect();
            literals.push(literal(AFTER + relay, random.coin()));
            system.step.push(clause(literals));
        }
    }
}

fn before_or_input(random: &mut Random, system: &System) -> usize {
    let drawn = random.below(system.relays + system.inputs);
    if drawn < system.relays {
        drawn
    } else {
        INPUT + drawn - system.relays
    }
}

/// Drawn clauses of one to four literals over all variables.
fn sparse(random: &mut Random, system: &mut System) {
    let most = system.relays * 4;
    for _ in 0..random.between(0, most) {
        let count = random.between(1, 4);
        let drawn = (0..count).map(|_| {
            let variable = if random.coin() { AFTER + random.below(system.relays) } else { before_or_input(random, system) };
            literal(variable, random.coin())
        });
        let drawn = clause(drawn.collect());
        system.step.push(drawn);
    }
}

/// The states in a drawn order, each leading to the next, the last to one of them; some wait for an input.
fn path(random: &mut Random, system: &mut System) {
    system.relays = system.relays.min(4);
    let count = 1u32 << system.relays;
    let mut order: Vec<u32> = (0..count).collect();
    for at in (1..order.len()).rev() {
        order.swap(at, random.below(at + 1));
    }
    let waits = system.inputs > 0 && random.chance(30);
    for at in 0..order.len() {
        let next = if at + 1 < order.len() { order[at + 1] } else { *random.pick(&order) };
        let input = (waits && random.coin()).then(|| literal(INPUT + random.below(system.inputs), random.coin()));
        for relay in 0..system.relays {
            let mut literals = denial(system.relays, order[at], count - 1);
            literals.push(literal(AFTER + relay, next >> relay & 1 == 0));
            literals.extend(input);
            system.step.push(clause(literals));
        }
    }
    system.start = units(system.relays, order[0]);
}

/// The clauses that make a state the only one.
fn units(relays: usize, state: u32) -> Vec<Clause> {
    (0..relays).map(|relay| vec![literal(relay, state >> relay & 1 == 0)]).collect()
}

/// Each relay keeps its value but where a drawn relay or input has a drawn value; then it is free, or goes on, or off.
fn latches(random: &mut Random, system: &mut System) {
    for relay in 0..system.relays {
        let held_by = literal(before_or_input(random, system), random.coin());
        for negated in [false, true] {
            let keeps = vec![literal(relay, !negated), held_by, literal(AFTER + relay, negated)];
            if variable(held_by) != relay {
                system.step.push(clause(keeps));
            }
        }
        match random.below(3) {
            0 => {}
            way => system.step.push(clause(vec![held_by ^ 1, literal(AFTER + relay, way == 1)])),
        }
    }
}

/// Counts up, or stays while an input is off.
fn counter(random: &mut Random, system: &mut System) {
    let waits = system.inputs > 0 && random.coin();
    let input = waits.then(|| literal(INPUT, true));
    for relay in 0..system.relays {
        let carry: Vec<u8> = (0..relay).map(|lower| literal(lower, true)).collect();
        for negated in [false, true] {
            let mut turns = carry.clone();
            turns.extend([literal(relay, negated), literal(AFTER + relay, negated)]);
            turns.extend(input);
            system.step.push(clause(turns));
            for still in (0..relay).map(|lower| literal(lower, false)).chain(input.map(|input| input ^ 1)) {
                system.step.push(clause(vec![still, literal(relay, !negated), literal(AFTER + relay, negated)]));
            }
        }
    }
    system.start = units(system.relays, if random.coin() { 0 } else { random.below(1 << system.relays) as u32 });
}

/// Broken after more steps than the program has places.
fn long_counter(random: &mut Random) -> System {
    let mut system = System { relays: 7, inputs: random.below(2), ..System::default() };
    counter(random, &mut system);
    system.start = units(7, 0);
    system.safety.push(denial(7, random.between(50, 127) as u32, 127));
    system
}

fn start(random: &mut Random, system: &mut System) {
    let state = random.below(1 << system.relays) as u32;
    match random.below(100) {
        0..=49 => system.start = units(system.relays, state),
        50..=74 => {
            system.start = units(system.relays, state);
            system.start.retain(|_| random.chance(70));
        }
        75..=89 => {
            for _ in 0..random.between(1, 4) {
                system.start.push(over_relays(random, system.relays, 3));
            }
        }
        90..=94 => {}
        95..=97 => system.start = vec![vec![literal(0, false)], vec![literal(0, true)]],
        _ => system.start = vec![vec![]],
    }
}

/// Of a system without safety clauses: such as all reached states keep, such as break some steps away, and drawn ones.
fn safety(random: &mut Random, system: &mut System) {
    let space = Space::of(system).expect("a small system");
    let layers = space.layers();
    let reached = layers.iter().fold(0, |states, layer| states | layer);
    let unreached = space.all & !reached;
    match random.below(100) {
        0..=29 if unreached != 0 => kept(random, system, &space, reached),
        30..=69 if layers.len() > 1 => {
            let most = layers.len() - 1;
            let depth = if random.chance(30) { most } else { random.between(1, most) };
            let state = *random.pick(&members(layers[depth]).collect::<Vec<u32>>());
            let before = layers[..depth].iter().fold(0, |states, layer| states | layer);
            broken_at(random, system, &space, state, before);
            if random.chance(30) && unreached != 0 {
                kept(random, system, &space, reached);
            }
        }
        70..=74 => {}
        75..=76 => system.safety.push(Vec::new()),
        _ => {
            for _ in 0..random.between(1, 3) {
                let clause = over_relays(random, system.relays, 3);
                // seldom one that is broken at once
                if space.initial & !space.truth(&clause) == 0 || random.chance(20) {
                    system.safety.push(clause);
                }
            }
        }
    }
}

/// One to three clauses that are true in all reached states, each false somewhere.
fn kept(random: &mut Random, system: &mut System, space: &Space, reached: States) {
    let unreached: Vec<u32> = members(space.all & !reached).collect();
    for _ in 0..random.between(1, 3) {
        let state = *random.pick(&unreached);
        let widened = widened(random, space, state, |states| states & reached == 0);
        system.safety.push(denial(system.relays, state, widened));
    }
}

/// A clause that is false at a state, and in no state that was reached before.
fn broken_at(random: &mut Random, system: &mut System, space: &Space, state: u32, before: States) {
    let widened = widened(random, space, state, |states| states & before == 0);
    system.safety.push(denial(system.relays, state, widened));
}

/// Relays whose values in a state exclude no more states than are allowed.
pub fn widened(random: &mut Random, space: &Space, state: u32, allowed: impl Fn(States) -> bool) -> u32 {
    let mut set = (1u32 << space.relays) - 1;
    debug_assert!(has(space.all, state));
    for relay in 0..space.relays {
        let fewer = set & !(1 << relay);
        let excluded = space.all & !space.truth(&denial(space.relays, state, fewer));
        if random.chance(60) && allowed(excluded) {
            set = fewer;
        }
    }
    set
}

/// Empty lists, empty clauses, contradictions, doubles.
fn odd(random: &mut Random, mut system: System) -> System {
    for list in 0..3 {
        for _ in 0..random.below(4) {
            let clauses = odd_clauses(random, &system, list);
            system.list_mut(list).extend(clauses);
        }
    }
    system
}

fn odd_clauses(random: &mut Random, system: &System, list: usize) -> Vec<Clause> {
    let relay = random.below(system.relays);
    let first = if list == 1 && random.coin() { AFTER } else { 0 };
    match random.below(6) {
        0 => vec![vec![]],
        1 => vec![vec![literal(first + relay, false)], vec![literal(first + relay, true)]],
        2 => vec![(0..system.relays).map(|relay| literal(first + relay, random.coin())).collect()],
        3 => vec![over_relays(random, system.relays, 3); 2],
        4 if list == 1 => vec![vec![literal(relay, true), literal(AFTER + relay, false)]],
        _ => vec![over_relays(random, system.relays, 2)],
    }
}

/// One clause more, or one less, or one twice.
fn disturb(random: &mut Random, system: &mut System) {
    let list = random.below(3);
    let more = odd_clauses(random, system, list);
    let clauses = system.list_mut(list);
    match random.below(3) {
        0 => clauses.extend(more),
        1 if !clauses.is_empty() => {
            let at = random.below(clauses.len());
            clauses.remove(at);
        }
        _ if !clauses.is_empty() => {
            let twice = random.pick(clauses).clone();
            clauses.push(twice);
        }
        _ => clauses.extend(more),
    }
}

/// A system at the bounds, which holds at once: it has no safety clause, or neither start nor step.
pub fn large(random: &mut Random) -> System {
    let relays = *random.pick(&[1, 7, 8, 31, 32, 32]);
    let inputs = *random.pick(&[0, 1, 63, 64, 64]);
    let mut system = System { relays, inputs, ..System::default() };
    let most = random.coin();
    let bare = random.coin();
    for (list, bound) in MOST_CLAUSES.into_iter().enumerate() {
        if list == 2 && bare {
            continue;
        }
        let count = if most { bound } else { random.below(bound + 1) };
        for _ in 0..count {
            let drawn = any_clause(random, &system, list, 12);
            system.list_mut(list).push(drawn);
        }
    }
    if !bare {
        system.start.truncate(MOST_CLAUSES[0] - 1);
        system.step.truncate(MOST_CLAUSES[1] - 1);
        system.start.push(Vec::new());
        system.step.push(Vec::new());
    }
    if random.coin() {
        lengthen(random, &mut system);
    }
    system
}

/// Lengthens step clauses until the case has just as many bytes as a case may have, where that many are there.
fn lengthen(random: &mut Random, system: &mut System) {
    let lists = system.lists();
    let mut length: usize = 18 + lists.iter().map(|list| list.len() + literals(list)).sum::<usize>();
    for at in 0..system.step.len() {
        let long = if system.step[at].is_empty() { Vec::new() } else { any_clause(random, system, 1, 200) };
        let more = long.len().saturating_sub(system.step[at].len());
        if more > 0 && length + more <= MOST_BYTES {
            length += more;
            system.step[at] = long;
        }
    }
    for clause in &mut system.step {
        if clause.is_empty() || length == MOST_BYTES {
            continue;
        }
        for relay in 0..system.relays {
            let spare = !clause.iter().any(|&literal| variable(literal) == AFTER + relay);
            if spare && length < MOST_BYTES {
                clause.push(literal(AFTER + relay, false));
                length += 1;
            }
        }
        clause.sort_unstable();
    }
}

/// A clause of up to so many literals that the list may have.
pub fn any_clause(random: &mut Random, system: &System, list: usize, most: usize) -> Clause {
    let count = random.between(1, most);
    let drawn = (0..count).map(|_| {
        let variable = match list {
            1 if random.coin() => AFTER + random.below(system.relays),
            1 => before_or_input(random, system),
            _ => random.below(system.relays),
        };
        literal(variable, random.coin())
    });
    clause(drawn.collect())
}
