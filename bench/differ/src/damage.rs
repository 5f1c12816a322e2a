//! Damaged cases, candidate lists of every kind, and questions to solvers.

use crate::format::{field, put_field, spell, spell_clauses, HEADER, MOST_CLAUSES};
use crate::generate::{clause, denial, large, over_relays, system, widened};
use crate::library::Questions;
use crate::random::Random;
use crate::space::{members, Space};
use crate::system::{literal, System};

/// The bytes of a case with one fault, or two, or changed at random; now and then nothing comes of it.
pub fn damaged(random: &mut Random) -> Vec<u8> {
    let drawn = if random.chance(12) { large(random) } else { system(random) };
    let mut bytes = spell(&drawn);
    match random.below(10) {
        0..=5 => fault(random, &mut bytes),
        6..=7 => {
            fault(random, &mut bytes);
            fault(random, &mut bytes);
        }
        _ => change(random, &mut bytes),
    }
    bytes
}

/// Some bytes are changed, or a bit of one.
fn change(random: &mut Random, bytes: &mut [u8]) {
    for _ in 0..random.between(1, 4) {
        if bytes.is_empty() {
            return;
        }
        // the header is met as often as the rest
        let at = if random.coin() { random.below(bytes.len().min(HEADER)) } else { random.below(bytes.len()) };
        bytes[at] = if random.coin() { random.next() as u8 } else { bytes[at] ^ 1 << random.below(8) };
    }
}

fn set_total(bytes: &mut [u8]) {
    if bytes.len() >= HEADER {
        put_field(bytes, 16, bytes.len());
    }
}

fn fault(random: &mut Random, bytes: &mut Vec<u8>) {
    if bytes.len() < HEADER {
        return;
    }
    match random.below(14) {
        0 => bytes.truncate(random.below(HEADER)),
        1 => put_field(bytes, 0, *random.pick(&[0, 33, 34, 255, 256, 257, 65535])),
        2 => put_field(bytes, 2, *random.pick(&[65, 66, 255, 256, 65535])),
        3 => {
            let list = random.below(3);
            let count = *random.pick(&[MOST_CLAUSES[list] + 1, 2000, 65535]);
            put_field(bytes, 4 + 2 * list, count);
        }
        4 => {
            let total = *random.pick(&[0, 18, bytes.len() + 1, bytes.len() - 1, 32768, 32769, 65535]);
            put_field(bytes, 16, total);
        }
        5 => cut_or_extend(random, bytes),
        6 => {
            let list = random.below(3);
            let offset = field(bytes, 10 + 2 * list);
            let changed = *random.pick(&[0, offset + 1, offset.saturating_sub(1), 65535]);
            put_field(bytes, 10 + 2 * list, changed);
        }
        7 | 8 => clauses_of_header(random, bytes),
        9 => bytes.extend((0..random.between(1, 3)).map(|_| random.next() as u8)),
        _ => literal_fault(random, bytes),
    }
    if random.chance(50) {
        set_total(bytes);
    }
}

fn cut_or_extend(random: &mut Random, bytes: &mut Vec<u8>) {
    match random.below(4) {
        0 => bytes.truncate(random.below(bytes.len() + 1)),
        1 => bytes.truncate(bytes.len() - random.between(1, 3)),
        2 => bytes.resize(random.between(32_760, 33_000), random.next() as u8),
        _ => bytes.push(0),
    }
    set_total(bytes);
}

/// One clause more or less in a list, by the header.
fn clauses_of_header(random: &mut Random, bytes: &mut [u8]) {
    let list = random.below(3);
    let count = field(bytes, 4 + 2 * list);
    let changed = if random.coin() { count + 1 } else { count.saturating_sub(1) };
    put_field(bytes, 4 + 2 * list, changed);
}

/// A literal of another list, or out of order, or a length that is off.
fn literal_fault(random: &mut Random, bytes: &mut [u8]) {
    if bytes.len() == HEADER {
        return;
    }
    let at = random.between(HEADER, bytes.len() - 1);
    bytes[at] = match random.below(5) {
        0 => bytes[at].wrapping_add(64),
        1 => bytes[at].wrapping_add(2),
        2 => bytes[at - 1],
        3 => bytes[at] ^ 1,
        _ => 255 - random.below(16) as u8,
    };
}

/// A list of candidates for a system, as bytes: right, damaged, long, contradictory, with doubles and empty clauses.
pub fn listed(random: &mut Random, system: &System) -> Vec<u8> {
    let relays = system.relays;
    let count = match random.below(100) {
        0..=4 => 0,
        5..=59 => random.between(1, 5),
        60..=93 => random.between(6, 30),
        94 => 512,
        95 => return spell_clauses(&vec![over_relays(random, relays, relays); 512]),
        96..=97 => 513,
        _ => random.between(200, 520),
    };
    let most = random.between(1, relays);
    let mut list: Vec<Vec<u8>> = match Space::of(system).filter(|_| random.chance(70)) {
        Some(space) => (0..count).map(|_| believed(random, &space, most)).collect(),
        None => (0..count).map(|_| over_relays(random, relays, most)).collect(),
    };
    if random.chance(20) && count > 1 {
        let twice = random.pick(&list).clone();
        let at = random.below(count);
        list[at] = twice;
    }
    if random.chance(20) && count > 1 {
        let relay = random.below(relays);
        list[0] = vec![literal(relay, false)];
        list[1] = vec![literal(relay, true)];
    }
    if random.chance(5) && count > 0 {
        list[random.below(count)] = Vec::new();
    }
    let mut bytes = spell_clauses(&list);
    if random.chance(15) {
        damage_list(random, &mut bytes);
    }
    bytes
}

/// A candidate that may well be inductive: true in all reached states, or in the initial ones, where there is such a clause.
fn believed(random: &mut Random, space: &Space, most: usize) -> Vec<u8> {
    let kept = if random.chance(75) { space.reached() } else { space.initial };
    let excluded: Vec<u32> = members(space.all & !kept).collect();
    if excluded.is_empty() || random.chance(15) {
        return over_relays(random, space.relays, most);
    }
    let state = *random.pick(&excluded);
    let relays = widened(random, space, state, |states| states & kept == 0);
    denial(space.relays, state, relays)
}

fn damage_list(random: &mut Random, bytes: &mut Vec<u8>) {
    if bytes.is_empty() {
        return bytes.push(1);
    }
    let at = if random.coin() { random.below(bytes.len()) } else { bytes.len() - 1 };
    match random.below(5) {
        0 => bytes.truncate(at),
        1 => bytes[at] = bytes[at].wrapping_add(2),
        2 => bytes[at] = random.next() as u8,
        3 => bytes[at] = bytes[at.saturating_sub(1)],
        _ => bytes.push(random.next() as u8),
    }
}

/// Marks for a descent over so many places: drawn, seldom of a wrong number or with a byte that is no mark.
pub fn marks(random: &mut Random, places: usize) -> Vec<u8> {
    let share = *random.pick(&[100, 100, 80, 50, 0]);
    let count = if random.chance(4) { *random.pick(&[0, places + 1, places.saturating_sub(1), places + 7, 1000]) } else { places };
    let mut marks: Vec<u8> = (0..count).map(|_| u8::from(random.chance(share))).collect();
    if random.chance(4) && count > 0 {
        let at = random.below(count);
        marks[at] = *random.pick(&[2, 3, 128, 255]);
    }
    marks
}

/// A few clauses on few variables from anywhere, with repeated literals and empty clauses now and then.
pub fn questions(random: &mut Random) -> Questions {
    let hard = random.chance(15);
    let count = if hard { random.between(6, 11) } else { random.between(1, 7) };
    let variables: Vec<usize> = (0..count).map(|_| random.below(128)).collect();
    let drawn = |random: &mut Random, most: usize| -> Vec<u8> {
        let count = if random.chance(3) { 0 } else { random.between(1, most) };
        let literals = (0..count).map(|_| literal(*random.pick(&variables), random.coin())).collect();
        if random.chance(80) {
            clause(literals)
        } else {
            literals
        }
    };
    let clauses = if hard { random.between(15, 50) } else { random.below(14) };
    let held: Vec<Vec<u8>> = (0..clauses).map(|_| drawn(random, 4)).collect();
    let replies = random.below(4);
    let asked: Vec<Vec<u8>> = (0..replies).map(|_| if random.chance(30) { Vec::new() } else { drawn(random, 3) }).collect();
    let need: usize = held.iter().map(Vec::len).sum();
    let literals = *random.pick(&[need, need, need + 1, need + 50, need.saturating_sub(1), 0]);
    let mut job =
        Questions { counting: random.coin(), clauses, literals, held: spell_clauses(&held), questions: spell_clauses(&asked), replies };
    match random.below(20) {
        0 => job.held.truncate(random.below(job.held.len() + 1)),
        1 => job.questions.truncate(random.below(job.questions.len() + 1)),
        2 => job.clauses = job.clauses.saturating_sub(1),
        3 => job.clauses += random.between(1, 3),
        4 => job.replies += 1,
        _ => {}
    }
    job
}
