//! Every clause over the relays at once: which are inductive relative to a set of states, and which parts of them.
//!
//! A clause is a number to the base 3, a digit for each relay: 0 where it does not occur, 1 negated, 2 plain.

use crate::book::{Entry, Kind};
use crate::space::{all_states, members, on, Space, States, MOST_SPACE_RELAYS};
use std::sync::OnceLock;

/// The clauses over so many relays, with what does not hang on a system.
pub struct Clauses {
    relays: usize,
    /// The lowest number whose digits are 1 at these relays and 0 elsewhere.
    ones: Vec<usize>,
    /// The relays that occur, and those of them that are plain.
    occurring: Vec<u32>,
    plain: Vec<u32>,
    /// The states that make each true.
    truths: Vec<States>,
}

static OVER: [OnceLock<Clauses>; MOST_SPACE_RELAYS + 1] = [const { OnceLock::new() }; MOST_SPACE_RELAYS + 1];

impl Clauses {
    /// All clauses over so many relays, which are made once.
    pub fn over(relays: usize) -> &'static Clauses {
        OVER[relays].get_or_init(|| Clauses::made(relays))
    }

    fn made(relays: usize) -> Clauses {
        let ones = (0..1usize << relays).map(|set| members(set as States).map(|relay| 3usize.pow(relay)).sum()).collect();
        let (mut occurring, mut plain) = (Vec::new(), Vec::new());
        for number in 0..3usize.pow(relays as u32) {
            let digit = |relay: usize| number / 3usize.pow(relay as u32) % 3;
            let set = |of: &dyn Fn(usize) -> bool| (0..relays).filter(|&relay| of(digit(relay))).fold(0, |set, relay| set | 1u32 << relay);
            occurring.push(set(&|digit| digit > 0));
            plain.push(set(&|digit| digit == 2));
        }
        let mut clauses = Clauses { relays, ones, occurring, plain, truths: Vec::new() };
        clauses.truths = clauses.truths();
        clauses
    }

    fn count(&self) -> usize {
        self.occurring.len()
    }

    fn number(&self, occurring: u32, plain: u32) -> usize {
        self.ones[occurring as usize] + self.ones[plain as usize]
    }

    /// All literals that are false at a state.
    pub fn denying(&self, state: u32) -> usize {
        let all = (1 << self.relays) - 1;
        self.number(all, all & !state)
    }

    /// The clause with only the literals of these relays.
    fn part(&self, clause: usize, relays: u32) -> usize {
        self.number(self.occurring[clause] & relays, self.plain[clause] & relays)
    }

    fn without(&self, clause: usize, relay: u32) -> usize {
        self.part(clause, !(1 << relay))
    }

    /// The clauses with one literal less.
    fn one_less(&self, clause: usize) -> impl Iterator<Item = usize> + '_ {
        members(States::from(self.occurring[clause])).map(move |relay| self.without(clause, relay))
    }

    pub fn entry(&self, clause: usize) -> Entry {
        Entry { kind: Kind::Found, first: self.occurring[clause], second: self.plain[clause], third: 0 }
    }

    /// The clause of an entry that keeps the rules.
    pub fn of_entry(&self, entry: &Entry) -> usize {
        self.number(entry.first, entry.second)
    }

    /// For each clause the states that make it true.
    fn truths(&self) -> Vec<States> {
        let on: Vec<States> = (0..self.relays).map(|relay| on(self.relays, relay)).collect();
        let all = all_states(self.relays);
        let mut truths = vec![0; self.count()];
        for clause in 1..self.count() {
            let relay = self.occurring[clause].trailing_zeros();
            let states = on[relay as usize];
            let plain = self.plain[clause] >> relay & 1 == 1;
            truths[clause] = truths[self.without(clause, relay)] | if plain { states } else { all & !states };
        }
        truths
    }
}

/// What holds of each clause relative to a set of consistent states.
pub struct Induction {
    pub clauses: &'static Clauses,
    initiated: Vec<bool>,
    /// The largest part that is true after every step from a consistent state where it is true.
    largest: Vec<usize>,
    inductive: Vec<bool>,
    /// Whether some part, the clause itself among them, is inductive.
    has_inductive: Vec<bool>,
}

impl Induction {
    pub fn of(space: &Space, consistent: States) -> Induction {
        let clauses = Clauses::over(space.relays);
        let mut induction =
            Induction { clauses, initiated: Vec::new(), largest: Vec::new(), inductive: Vec::new(), has_inductive: Vec::new() };
        for clause in 0..clauses.count() {
            let truth = clauses.truths[clause];
            let closed = members(consistent & truth).all(|state| space.next[state as usize] & !truth == 0);
            let initiated = space.initial & !truth == 0;
            let inductive = closed && initiated;
            let largest = if closed { clause } else { induction.largest_below(clause) };
            let below = clauses.one_less(clause).any(|part| induction.has_inductive[part]);
            induction.initiated.push(initiated);
            induction.largest.push(largest);
            induction.inductive.push(inductive);
            induction.has_inductive.push(inductive || below);
        }
        induction
    }

    /// The union of what is closed in the parts with one literal less.
    fn largest_below(&self, clause: usize) -> usize {
        let parts = self.clauses.one_less(clause).map(|part| self.clauses.occurring[self.largest[part]]);
        self.clauses.part(clause, parts.fold(0, |relays, part| relays | part))
    }

    /// What a turn that found this state stores: the trimmed clause, or none.
    pub fn learned(&self, state: u32) -> Option<usize> {
        let mut clause = self.largest[self.clauses.denying(state)];
        if !self.initiated[clause] {
            return None;
        }
        for relay in 0..self.clauses.relays as u32 {
            let part = self.largest[self.clauses.without(clause, relay)];
            if self.clauses.occurring[clause] >> relay & 1 == 1 && self.initiated[part] {
                clause = part;
            }
        }
        Some(clause)
    }

    /// Whether some clause that is false at the state is inductive.
    pub fn can_exclude(&self, state: u32) -> bool {
        self.has_inductive[self.clauses.denying(state)]
    }

    /// Whether the clause is inductive, and no proper part of it is.
    pub fn is_minimal(&self, clause: usize) -> bool {
        self.inductive[clause] && !self.clauses.one_less(clause).any(|part| self.has_inductive[part])
    }

    /// The largest closed part of the clause of these relays' literals that are false at a state.
    pub fn descended(&self, state: u32, relays: u32) -> u32 {
        let clause = self.clauses.part(self.clauses.denying(state), relays);
        self.clauses.occurring[self.largest[clause]]
    }
}
