//! Lists of calls, as the driver reads them.

use crate::book::Entry;
use crate::format::hex;
use std::fmt;

#[derive(Clone, Debug)]
pub enum Call {
    Solver { counting: bool, clauses: usize, literals: usize },
    Open { bytes: Vec<u8>, places: usize },
    Turn { size: usize },
    Take { size: usize, listed: Vec<u8> },
    Look,
    Entry { size: usize, number: usize },
    State { size: usize, number: usize },
    Close,
    Junk { place: usize, entry: Entry },
    Book,
    Held,
}

impl fmt::Display for Call {
    fn fmt(&self, out: &mut fmt::Formatter) -> fmt::Result {
        match self {
            Call::Solver { counting, clauses, literals } => {
                write!(out, "solver {} {clauses} {literals}", if *counting { 'c' } else { 'p' })
            }
            Call::Open { bytes, places } => write!(out, "open {} {places}", hex(bytes)),
            Call::Turn { size } => write!(out, "turn {size}"),
            Call::Take { size, listed } => write!(out, "take {size} {}", hex(listed)),
            Call::Look => write!(out, "look"),
            Call::Entry { size, number } => write!(out, "entry {size} {number}"),
            Call::State { size, number } => write!(out, "state {size} {number}"),
            Call::Close => write!(out, "close"),
            Call::Junk { place, entry: Entry { kind, first, second, third } } => {
                write!(out, "junk {place} {} {first} {second} {third}", *kind as u32)
            }
            Call::Book => write!(out, "book"),
            Call::Held => write!(out, "held"),
        }
    }
}
