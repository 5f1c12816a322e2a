//! How cases and candidate lists lie in bytes, and the first fault of bytes that spell none.

use crate::system::{variable, Clause, System, AFTER, INPUT};
use std::fmt;

pub const HEADER: usize = 18;
pub const MOST_BYTES: usize = 32_768;
pub const MOST_RELAYS: usize = 32;
pub const MOST_INPUTS: usize = 64;
pub const MOST_CLAUSES: [usize; 3] = [256, 1024, 256];
pub const MOST_CANDIDATES: usize = 512;

#[derive(Clone, Copy, PartialEq, Eq, Debug)]
pub struct Refusal {
    pub layer: u8,
    pub number: u32,
    pub place: usize,
}

impl fmt::Display for Refusal {
    fn fmt(&self, out: &mut fmt::Formatter) -> fmt::Result {
        write!(out, "refused {} {} {}", self.layer, self.number, self.place)
    }
}

pub fn refusal(layer: u8, number: u32, place: usize) -> Refusal {
    Refusal { layer, number, place }
}

fn refuse<T>(layer: u8, number: u32, place: usize) -> Result<T, Refusal> {
    Err(refusal(layer, number, place))
}

/// The number of two bytes, low byte first.
pub fn field(bytes: &[u8], at: usize) -> usize {
    usize::from(bytes[at]) + 256 * usize::from(bytes[at + 1])
}

/// Which variables a list may have.
#[derive(Clone, Copy)]
enum Scope {
    Relays { relays: usize },
    Step { relays: usize, inputs: usize },
}

impl Scope {
    fn has(self, variable: usize) -> bool {
        match self {
            Scope::Relays { relays } => variable < relays,
            Scope::Step { relays, inputs } => {
                variable < relays || (AFTER..AFTER + relays).contains(&variable) || (INPUT..INPUT + inputs).contains(&variable)
            }
        }
    }
}

/// The clause whose length byte is at `at`, and where it ends.
fn read_clause(bytes: &[u8], at: usize, scope: Scope) -> Result<(Clause, usize), Refusal> {
    let Some(&length) = bytes.get(at) else {
        return refuse(1, 17, at);
    };
    let end = at + 1 + usize::from(length);
    if end > bytes.len() {
        return refuse(1, 17, at);
    }
    for place in at + 1..end {
        if !scope.has(variable(bytes[place])) {
            return refuse(1, 18, place);
        }
        if place > at + 1 && variable(bytes[place]) <= variable(bytes[place - 1]) {
            return refuse(1, 19, place);
        }
    }
    Ok((bytes[at + 1..end].to_vec(), end))
}

fn check_header(bytes: &[u8]) -> Result<(), Refusal> {
    if bytes.len() < HEADER {
        return refuse(2, 11, bytes.len());
    }
    if !(1..=MOST_RELAYS).contains(&field(bytes, 0)) {
        return refuse(2, 12, 0);
    }
    if field(bytes, 2) > MOST_INPUTS {
        return refuse(2, 13, 2);
    }
    for (list, most) in MOST_CLAUSES.into_iter().enumerate() {
        if field(bytes, 4 + 2 * list) > most {
            return refuse(2, 14, 4 + 2 * list);
        }
    }
    let total = field(bytes, 16);
    if total > MOST_BYTES || total != bytes.len() {
        return refuse(2, 15, 16);
    }
    Ok(())
}

/// The system that the bytes spell, or their first fault.
pub fn read_case(bytes: &[u8]) -> Result<System, Refusal> {
    check_header(bytes)?;
    let (relays, inputs) = (field(bytes, 0), field(bytes, 2));
    let mut system = System { relays, inputs, ..System::default() };
    let mut at = HEADER;
    for list in 0..3 {
        if field(bytes, 10 + 2 * list) != at {
            return refuse(2, 16, 10 + 2 * list);
        }
        let scope = if list == 1 { Scope::Step { relays, inputs } } else { Scope::Relays { relays } };
        for _ in 0..field(bytes, 4 + 2 * list) {
            let (clause, end) = read_clause(bytes, at, scope)?;
            system.list_mut(list).push(clause);
            at = end;
        }
    }
    if at < bytes.len() {
        return refuse(2, 20, at);
    }
    Ok(system)
}

/// The candidates that the bytes spell, or their first fault.
pub fn read_candidates(relays: usize, bytes: &[u8]) -> Result<Vec<Clause>, Refusal> {
    let mut list = Vec::new();
    let mut one_more = None;
    let mut at = 0;
    while at < bytes.len() {
        let (clause, end) = read_clause(bytes, at, Scope::Relays { relays })?;
        if list.len() == MOST_CANDIDATES && one_more.is_none() {
            one_more = Some(at);
        }
        if one_more.is_none() {
            list.push(clause);
        }
        at = end;
    }
    match one_more {
        Some(place) => refuse(3, 21, place),
        None => Ok(list),
    }
}

pub fn spell_clauses(clauses: &[Clause]) -> Vec<u8> {
    let mut bytes = Vec::new();
    for clause in clauses {
        bytes.push(clause.len() as u8);
        bytes.extend_from_slice(clause);
    }
    bytes
}

pub fn put_field(bytes: &mut [u8], at: usize, number: usize) {
    bytes[at] = number as u8;
    bytes[at + 1] = (number >> 8) as u8;
}

/// The bytes of a system, admitted or not: where a number has more than two bytes, its lower two.
pub fn spell(system: &System) -> Vec<u8> {
    let mut bytes = vec![0; HEADER];
    put_field(&mut bytes, 0, system.relays);
    put_field(&mut bytes, 2, system.inputs);
    for (list, clauses) in system.lists().into_iter().enumerate() {
        let begin = bytes.len();
        put_field(&mut bytes, 4 + 2 * list, clauses.len());
        put_field(&mut bytes, 10 + 2 * list, begin);
        bytes.extend(spell_clauses(clauses));
    }
    let total = bytes.len();
    put_field(&mut bytes, 16, total);
    bytes
}

pub fn hex(bytes: &[u8]) -> String {
    if bytes.is_empty() {
        return "-".to_string();
    }
    bytes.iter().map(|byte| format!("{byte:02x}")).collect()
}
