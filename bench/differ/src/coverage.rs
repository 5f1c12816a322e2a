//! What was met, by kind: so that one sees that each was.

use crate::book::{Entry, Kind};
use crate::format::Refusal;
use std::collections::BTreeMap;

#[derive(Default)]
pub struct Coverage(BTreeMap<(&'static str, String), u64>);

/// By which way a job went.
#[derive(Clone, Copy, PartialEq, Eq)]
pub enum Path {
    Program,
    Library,
    Driver,
}

impl Coverage {
    pub fn note(&mut self, group: &'static str, what: &str) {
        self.add(group, what.to_string(), 1);
    }

    fn add(&mut self, group: &'static str, what: String, count: u64) {
        *self.0.entry((group, what)).or_default() += count;
    }

    pub fn refusal(&mut self, refusal: Refusal) {
        let Refusal { layer, number, place } = refusal;
        self.add("refused", format!("{layer} {number}"), 1);
        if number == 44 {
            self.note("refused", if place == 0 { "3 44 at place 0" } else { "3 44 at a later place" });
        }
    }

    pub fn entry(&mut self, kind: Kind) {
        match kind {
            Kind::Found => self.note("entries", "found"),
            Kind::Subgoal => self.note("entries", "subgoal"),
            Kind::Taken => self.note("entries", "taken"),
            Kind::Blank => self.note("entries", "blank"),
        }
    }

    pub fn taking(&mut self, candidates: usize, taken: &[Entry]) {
        let kept = match taken.len() {
            0 => "none of",
            count if count == candidates => "all of",
            _ => "some of",
        };
        let listed = match candidates {
            0 => "none",
            1..=9 => "a few",
            10..=511 => "many",
            _ => "512",
        };
        self.add("takings", format!("{kept} {listed}"), 1);
        taken.iter().for_each(|entry| self.entry(entry.kind));
    }

    /// A run of so many steps to a broken state was told.
    pub fn broken(&mut self, steps: usize) {
        let steps = if steps > 12 { "13 or more".to_string() } else { format!("{steps:2}") };
        self.add("runs, by steps", steps, 1);
    }

    /// The least number of steps to a broken state, by brute force.
    pub fn depth(&mut self, depth: Option<usize>) {
        let depth = match depth {
            None => "none: safe".to_string(),
            Some(depth) if depth > 12 => "13 or more".to_string(),
            Some(depth) => format!("{depth:2}"),
        };
        self.add("systems, by steps to a broken state", depth, 1);
    }

    pub fn turns(&mut self, turns: usize) {
        let turns = match turns {
            0..=9 => format!("{turns:3}"),
            10..=19 => " 10 to 19".to_string(),
            20..=39 => " 20 to 39".to_string(),
            40..=64 => " 40 to 64".to_string(),
            _ => " more than 64".to_string(),
        };
        self.add("judgings, by entries", turns, 1);
    }

    pub fn merge(&mut self, other: Coverage) {
        for ((group, what), count) in other.0 {
            self.add(group, what, count);
        }
    }

    pub fn count(&self, group: &'static str, what: &str) -> u64 {
        self.0.get(&(group, what.to_string())).copied().unwrap_or(0)
    }
}

/// The table of all paths, a row for each kind.
pub fn print_table(paths: &[Coverage; 3]) {
    let mut keys: Vec<&(&'static str, String)> = paths.iter().flat_map(|path| path.0.keys()).collect();
    keys.sort();
    keys.dedup();
    println!("| {:60} | {:>9} | {:>9} | {:>9} |", "met", "program", "library", "driver");
    println!("|{}|{}:|{}:|{}:|", "-".repeat(62), "-".repeat(10), "-".repeat(10), "-".repeat(10));
    for key in keys {
        let counts: Vec<u64> = paths.iter().map(|path| path.0.get(key).copied().unwrap_or(0)).collect();
        println!("| {:60} | {:>9} | {:>9} | {:>9} |", format!("{}: {}", key.0, key.1), counts[0], counts[1], counts[2]);
    }
}
