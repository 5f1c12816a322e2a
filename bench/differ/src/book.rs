//! Entries of a book, their rules, and what they say.

use crate::format::MOST_CLAUSES;
use crate::space::{has, Space, States};
use crate::system::{is_negated, variable};
use std::fmt;

#[derive(Clone, Copy, PartialEq, Eq, Debug, Hash)]
pub enum Kind {
    Blank,
    Found,
    Subgoal,
    Taken,
}

#[derive(Clone, Copy, PartialEq, Eq, Debug, Hash)]
pub struct Entry {
    pub kind: Kind,
    pub first: u32,
    pub second: u32,
    pub third: u16,
}

/// Targets from here on are subgoals.
pub const SUBGOALS: u16 = 256;

impl Kind {
    pub fn of(number: u32) -> Option<Kind> {
        [Kind::Blank, Kind::Found, Kind::Subgoal, Kind::Taken].get(number as usize).copied()
    }
}

impl fmt::Display for Entry {
    fn fmt(&self, out: &mut fmt::Formatter) -> fmt::Result {
        write!(out, "{}:{}:{}:{}", self.kind as u32, self.first, self.second, self.third)
    }
}

impl Entry {
    pub fn blank() -> Entry {
        Entry { kind: Kind::Blank, first: 0, second: 0, third: 0 }
    }

    pub fn subgoal(state: u32, successor: u32, target: u16) -> Entry {
        Entry { kind: Kind::Subgoal, first: state, second: successor, third: target }
    }

    /// Of a clause over relays.
    pub fn of_clause(kind: Kind, clause: &[u8]) -> Entry {
        let (mut first, mut second) = (0, 0);
        for &literal in clause {
            first |= 1 << variable(literal);
            second |= u32::from(!is_negated(literal)) << variable(literal);
        }
        Entry { kind, first, second, third: 0 }
    }

    /// From `kind:first:second:third`.
    pub fn parse(text: &str) -> Option<Entry> {
        let parts: Vec<&str> = text.split(':').collect();
        let [kind, first, second, third] = parts[..] else {
            return None;
        };
        let kind = Kind::of(kind.parse().ok()?)?;
        Some(Entry { kind, first: first.parse().ok()?, second: second.parse().ok()?, third: third.parse().ok()? })
    }

    pub fn is_subgoal(&self) -> bool {
        self.kind == Kind::Subgoal
    }

    /// How many literals the clause has by which a solver holds the entry.
    pub fn held_literals(&self, relays: usize) -> usize {
        if self.is_subgoal() {
            relays
        } else {
            self.first.count_ones() as usize
        }
    }

    /// The states that the entry leaves consistent.
    pub fn leaves(&self, space: &Space) -> States {
        match self.kind {
            Kind::Subgoal => space.all & !(1 << self.first),
            _ => space.all & !self.denied(space),
        }
    }

    /// The states that make the clause false.
    fn denied(&self, space: &Space) -> States {
        let off = |state: u32| self.first & !(state ^ self.second) == 0;
        (0..1u32 << space.relays).filter(|&state| off(state)).fold(0, |states, state| states | 1 << state)
    }
}

/// Whether a used entry keeps its rule; `before` are those of smaller numbers.
fn keeps_rule(entry: &Entry, before: &[Entry], relays: usize, safety: usize) -> bool {
    let in_states = |number: u32| u64::from(number) < 1 << relays;
    match entry.kind {
        Kind::Blank => false,
        Kind::Found | Kind::Taken => in_states(entry.first) && entry.second & !entry.first == 0 && entry.third == 0,
        Kind::Subgoal => {
            let led = if entry.third < SUBGOALS {
                usize::from(entry.third) < safety
            } else {
                let earlier = before.get(usize::from(entry.third - SUBGOALS));
                earlier.is_some_and(|earlier| earlier.is_subgoal() && earlier.first == entry.second)
            };
            in_states(entry.first) && in_states(entry.second) && led
        }
    }
}

/// The first used entry that is against its rule.
pub fn against_rules(used: &[Entry], relays: usize, safety: usize) -> Option<usize> {
    debug_assert!(safety <= MOST_CLAUSES[2]);
    (0..used.len()).find(|&number| !keeps_rule(&used[number], &used[..number], relays, safety))
}

/// The states that are consistent with a book.
pub fn consistent(space: &Space, used: &[Entry]) -> States {
    used.iter().fold(space.safe, |states, entry| states & entry.leaves(space))
}

/// The state that a subgoal is.
pub fn state_of(entry: &Entry, space: &Space) -> Option<u32> {
    (entry.is_subgoal() && has(space.all, entry.first)).then_some(entry.first)
}

/// The run that begins with the last entry, a subgoal: its state, its successor, and so on by the targets.
pub fn run_of(used: &[Entry]) -> Vec<u32> {
    let mut entry = used[used.len() - 1];
    let mut run = vec![entry.first, entry.second];
    while entry.third >= SUBGOALS {
        entry = used[usize::from(entry.third - SUBGOALS)];
        run.push(entry.second);
    }
    run
}
