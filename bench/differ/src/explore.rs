//! Which verdicts a judging may end with, and with how many entries, over all that a solver is free to choose.

use crate::book::{consistent, Entry};
use crate::space::{has, Space, States};
use crate::turn::{seek, Turn};
use std::collections::{BTreeSet, HashSet};

pub const UNDECIDED: u32 = 0;
pub const HOLDS: u32 = 1;
pub const BROKEN: u32 = 2;

/// A verdict with the number of used places.
pub type Ending = (u32, usize);

struct Search<'a> {
    space: &'a Space,
    places: usize,
    left: usize,
    seen: HashSet<(States, Vec<u32>, usize)>,
    endings: BTreeSet<Ending>,
}

/// All endings; none where there are more books to go through than the limit.
pub fn endings(space: &Space, places: usize, limit: usize) -> Option<BTreeSet<Ending>> {
    if space.initial & !space.safe != 0 {
        return Some(BTreeSet::from([(BROKEN, 0)]));
    }
    let mut search = Search { space, places, left: limit, seen: HashSet::new(), endings: BTreeSet::new() };
    search.go(&mut Vec::new())?;
    Some(search.endings)
}

impl Search<'_> {
    fn go(&mut self, used: &mut Vec<Entry>) -> Option<()> {
        let subgoals = used.iter().filter(|entry| entry.is_subgoal()).map(|entry| entry.first).collect();
        if !self.seen.insert((consistent(self.space, used), subgoals, used.len())) {
            return Some(());
        }
        self.left = self.left.checked_sub(1)?;
        let Some(sought) = seek(self.space, used) else {
            self.endings.insert((HOLDS, used.len()));
            return Some(());
        };
        if used.len() == self.places {
            self.endings.insert((UNDECIDED, used.len()));
            return Some(());
        }
        let mut entries = Turn::of(self.space, used, sought).entries(self.space);
        // which successor a subgoal has changes nothing that follows
        entries.dedup_by_key(|entry| (entry.kind, entry.first, if entry.is_subgoal() { 0 } else { entry.second }));
        for entry in entries {
            used.push(entry);
            if entry.is_subgoal() && has(self.space.initial, entry.first) {
                self.endings.insert((BROKEN, used.len()));
            } else {
                self.go(used)?;
            }
            used.pop();
        }
        Some(())
    }
}
