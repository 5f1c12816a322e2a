//! Systems, and the literals of their clauses.

/// A clause is a list of literals, each twice its variable, and 1 more where it is negated.
pub type Clause = Vec<u8>;

#[derive(Clone, PartialEq, Eq, Debug, Default)]
pub struct System {
    pub relays: usize,
    pub inputs: usize,
    pub start: Vec<Clause>,
    pub step: Vec<Clause>,
    pub safety: Vec<Clause>,
}

/// Where the variables of relays after a step, and those of inputs, begin.
pub const AFTER: usize = 32;
pub const INPUT: usize = 64;

pub fn literal(variable: usize, negated: bool) -> u8 {
    (2 * variable + usize::from(negated)) as u8
}

pub fn variable(literal: u8) -> usize {
    usize::from(literal / 2)
}

pub fn is_negated(literal: u8) -> bool {
    literal % 2 == 1
}

/// How many literals the clauses have together.
pub fn literals(clauses: &[Clause]) -> usize {
    clauses.iter().map(Vec::len).sum()
}

impl System {
    pub fn lists(&self) -> [&Vec<Clause>; 3] {
        [&self.start, &self.step, &self.safety]
    }

    pub fn list_mut(&mut self, list: usize) -> &mut Vec<Clause> {
        match list {
            0 => &mut self.start,
            1 => &mut self.step,
            _ => &mut self.safety,
        }
    }
}
