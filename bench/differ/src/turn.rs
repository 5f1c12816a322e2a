//! What a turn and a taking come to, by brute force, and which of the entries that a turn may store are right.

use crate::book::{consistent, state_of, Entry, Kind, SUBGOALS};
use crate::induction::Induction;
use crate::space::{has, members, Space, States};
use crate::system::Clause;

/// The first target that a step from a consistent state leads to.
#[derive(Clone, Copy, Debug)]
pub struct Sought {
    pub target: u16,
    at: States,
    from: States,
}

fn steps_to(space: &Space, consistent: States, target: u16, at: States) -> Option<Sought> {
    let leads = |state: u32| space.next[state as usize] & at != 0;
    let from = members(consistent).filter(|&state| leads(state)).fold(0, |states, state| states | 1 << state);
    (from != 0).then_some(Sought { target, at, from })
}

/// The safety clauses in order, and then the subgoals in order.
pub fn seek(space: &Space, used: &[Entry]) -> Option<Sought> {
    let consistent = consistent(space, used);
    let clauses = space.breaking.iter().enumerate().map(|(number, &at)| (number as u16, at));
    let subgoals = used.iter().enumerate().filter_map(|(number, entry)| {
        let state = state_of(entry, space)?;
        Some((SUBGOALS + number as u16, 1 << state))
    });
    clauses.chain(subgoals).find_map(|(target, at)| steps_to(space, consistent, target, at))
}

/// A turn that found a state: any that has a step to the target, and any of its successors there.
pub struct Turn {
    sought: Sought,
    induction: Induction,
}

impl Turn {
    pub fn of(space: &Space, used: &[Entry], sought: Sought) -> Turn {
        Turn { sought, induction: Induction::of(space, consistent(space, used)) }
    }

    /// The entries that the turn may store; of subgoals one for each state and successor.
    pub fn entries(&self, space: &Space) -> Vec<Entry> {
        let mut entries: Vec<Entry> = Vec::new();
        for state in members(self.sought.from) {
            match self.induction.learned(state) {
                Some(clause) => entries.push(self.induction.clauses.entry(clause)),
                None => entries.extend(
                    members(space.next[state as usize] & self.sought.at)
                        .map(|successor| Entry::subgoal(state, successor, self.sought.target)),
                ),
            }
        }
        entries.sort_unstable_by_key(|entry| (entry.kind as u8, entry.first, entry.second));
        entries.dedup();
        entries
    }

    /// Whether the turn may store this entry, and if not, why.
    pub fn judge(&self, space: &Space, entry: &Entry) -> Result<(), String> {
        match entry.kind {
            Kind::Found => self.judge_found(space, entry),
            Kind::Subgoal => self.judge_subgoal(space, entry),
            _ => Err(format!("a turn stores {entry}")),
        }
    }

    fn judge_found(&self, space: &Space, entry: &Entry) -> Result<(), String> {
        let clauses = self.induction.clauses;
        let within = members(space.all).count() as u32 - 1;
        if entry.first & !within != 0 || entry.second & !entry.first != 0 || entry.third != 0 {
            return Err(format!("{entry} is against its rule"));
        }
        let clause = clauses.of_entry(entry);
        if !self.induction.is_minimal(clause) {
            return Err(format!("the clause {entry} is not inductive, or a part of it is"));
        }
        if !members(self.sought.from).any(|state| self.induction.learned(state) == Some(clause)) {
            return Err(format!("no state with a step to target {} yields the clause {entry}", self.sought.target));
        }
        Ok(())
    }

    fn judge_subgoal(&self, space: &Space, entry: &Entry) -> Result<(), String> {
        if entry.third != self.sought.target {
            return Err(format!("{entry} has not the target {}", self.sought.target));
        }
        if !has(self.sought.from, entry.first) || !has(space.next[entry.first as usize] & self.sought.at, entry.second) {
            return Err(format!("{entry} is no step from a consistent state to its target"));
        }
        if self.induction.can_exclude(entry.first) {
            return Err(format!("{entry} is a subgoal, but an inductive clause excludes it"));
        }
        if self.induction.learned(entry.first).is_some() {
            return Err(format!("{entry}: the descent finds a clause where none is inductive"));
        }
        Ok(())
    }
}

/// The candidates that stay marked: the largest set within the marks that is true after every step from a consistent state
/// where all of them are true.
pub fn kept_together(space: &Space, consistent: States, truths: &[States], mut marks: Vec<bool>) -> Vec<bool> {
    loop {
        let marked = || truths.iter().zip(&marks).filter(|(_, &mark)| mark).map(|(&truth, _)| truth);
        let from = marked().fold(consistent, |states, truth| states & truth);
        let after = space.after(from);
        let fewer: Vec<bool> = truths.iter().zip(&marks).map(|(&truth, &mark)| mark && after & !truth == 0).collect();
        if fewer == marks {
            return marks;
        }
        marks = fewer;
    }
}

/// The same by going through all sets, where there are few candidates.
pub fn kept_by_sets(space: &Space, consistent: States, truths: &[States], marks: &[bool]) -> Vec<bool> {
    let mut kept = vec![false; truths.len()];
    for set in 0..1usize << truths.len() {
        let inside = |number: usize| set >> number & 1 == 1;
        if (0..truths.len()).any(|number| inside(number) && !marks[number]) {
            continue;
        }
        let all = (0..truths.len()).filter(|&number| inside(number)).fold(space.all, |states, number| states & truths[number]);
        if space.after(consistent & all) & !all == 0 {
            (0..truths.len()).for_each(|number| kept[number] |= inside(number));
        }
    }
    kept
}

/// What a taking stores, in order.
pub fn taken(space: &Space, used: &[Entry], candidates: &[Clause]) -> Vec<Entry> {
    let consistent = consistent(space, used);
    let truths: Vec<States> = candidates.iter().map(|clause| space.truth(clause)).collect();
    let initiated: Vec<bool> = truths.iter().map(|truth| space.initial & !truth == 0).collect();
    let kept = kept_together(space, consistent, &truths, initiated.clone());
    if truths.len() <= 5 {
        assert_eq!(kept, kept_by_sets(space, consistent, &truths, &initiated), "the judge's own descents differ");
    }
    let kept = candidates.iter().zip(kept).filter(|(_, kept)| *kept);
    kept.map(|(clause, _)| Entry::of_clause(Kind::Taken, clause)).collect()
}
