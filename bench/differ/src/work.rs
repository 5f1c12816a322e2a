//! A work as the documents tell of it: what each call must answer, after what was answered before.

use crate::book::{against_rules, run_of, Entry, Kind, SUBGOALS};
use crate::calls::Call;
use crate::coverage::Coverage;
use crate::format::{read_candidates, read_case, refusal, Refusal};
use crate::space::{has, Space};
use crate::system::{literals, System};
use crate::turn::{seek, taken, Turn};

pub const MOST_PLACES: usize = 8192;
const MORE_CLAUSES: usize = 513;

/// How many clauses and literals.
#[derive(Clone, Copy, PartialEq, Eq, Debug, Default)]
pub struct Capacity {
    pub clauses: usize,
    pub literals: usize,
}

/// What a solver for a case and a book of so many places has to have room for.
pub fn room_for(system: &System, places: usize) -> Capacity {
    let lists = system.lists();
    Capacity {
        clauses: lists.iter().map(|list| list.len()).sum::<usize>() + places + MORE_CLAUSES,
        literals: lists.iter().map(|list| literals(list)).sum::<usize>() + system.relays * (places + MORE_CLAUSES),
    }
}

#[derive(Default)]
struct Solver {
    capacity: Capacity,
    held: Capacity,
}

#[derive(Clone, Copy, PartialEq, Eq, Debug)]
pub enum Verdict {
    Undecided,
    Holds,
    BrokenAt(u32),
    ByEntry,
}

impl std::fmt::Display for Verdict {
    fn fmt(&self, out: &mut std::fmt::Formatter) -> std::fmt::Result {
        match self {
            Verdict::Undecided => write!(out, "undecided"),
            Verdict::Holds => write!(out, "holds"),
            Verdict::BrokenAt(state) => write!(out, "broken:{state}"),
            Verdict::ByEntry => write!(out, "by-entry"),
        }
    }
}

struct Work {
    system: System,
    space: Space,
    places: usize,
    used: usize,
    verdict: Verdict,
    closed: bool,
    /// Whether all used entries are as calls left them.
    lived: bool,
    turns: usize,
    taken: usize,
}

impl Work {
    fn told(&self) -> String {
        format!("{} {} {}", self.verdict, self.used, self.places)
    }
}

/// What the driver has, by its answers so far.
#[derive(Default)]
pub struct Model {
    solver: Solver,
    work: Option<Work>,
    memory: Vec<Entry>,
    /// A turn whose entry was not read yet.
    pending: Option<Turn>,
    pub coverage: Coverage,
}

type Judged = Result<(), String>;

fn same(answer: &str, expected: &str) -> Judged {
    if answer == expected {
        return Ok(());
    }
    Err(format!("expected `{expected}`"))
}

impl Model {
    /// Whether the answer to the call is right; afterwards it is taken for what happened.
    pub fn judge(&mut self, call: &Call, answer: &str) -> Judged {
        match call {
            Call::Solver { counting, clauses, literals } => {
                self.coverage.note("calls", if *counting { "counting solvers made" } else { "propagating solvers made" });
                let capacity = Capacity { clauses: *clauses, literals: *literals };
                self.solver = Solver { capacity, held: Capacity::default() };
                same(answer, "solver")
            }
            Call::Open { bytes, places } => self.open(bytes, *places, answer),
            Call::Turn { size } => self.turn(*size, answer),
            Call::Take { size, listed } => self.take(*size, listed, answer),
            Call::Look => match &self.work {
                Some(work) => same(answer, &format!("look {}", work.told())),
                None => same(answer, "none"),
            },
            Call::Entry { size, number } => self.entry(*size, *number, answer),
            Call::State { size, number } => self.state(*size, *number, answer),
            Call::Close => self.close(answer),
            Call::Junk { place, entry } => self.junk(*place, *entry, answer),
            Call::Book => self.book(answer),
            Call::Held => self.held(answer),
        }
    }

    fn refused(&mut self, answer: &str, refusal: Refusal) -> Judged {
        self.coverage.refusal(refusal);
        same(answer, &refusal.to_string())
    }

    fn none(&mut self, answer: &str) -> Judged {
        self.coverage.note("calls", "that do not fit the state");
        same(answer, "none")
    }

    fn lacks_room(&self, system: &System, places: usize) -> bool {
        let room = room_for(system, places);
        self.solver.capacity.clauses < room.clauses || self.solver.capacity.literals < room.literals
    }

    fn open_fault(&self, bytes: &[u8], places: usize) -> Result<System, Refusal> {
        let system = read_case(bytes)?;
        if places > MOST_PLACES {
            return Err(refusal(3, 32, 0));
        }
        if self.lacks_room(&system, places) {
            return Err(refusal(3, 45, 0));
        }
        Ok(system)
    }

    fn open(&mut self, bytes: &[u8], places: usize, answer: &str) -> Judged {
        self.work = None;
        self.pending = None;
        self.memory = vec![Entry::blank(); places];
        let system = match self.open_fault(bytes, places) {
            Ok(system) => system,
            Err(refusal) => return self.refused(answer, refusal),
        };
        self.solver.held = Capacity::default();
        let space = Space::of(&system).expect("a small system");
        let broken = space.initial & !space.safe;
        let verdict = match answer.strip_prefix("ok broken:").and_then(|rest| rest.split(' ').next()) {
            Some(state) => Verdict::BrokenAt(state.parse().map_err(|_| "expected a state".to_string())?),
            None => Verdict::Undecided,
        };
        let work = Work { system, space, places, used: 0, verdict, closed: false, lived: true, turns: 0, taken: 0 };
        let told = format!("ok {}", work.told());
        self.work = Some(work);
        self.coverage.note("verdicts", if broken == 0 { "undecided at opening" } else { "broken at opening" });
        match verdict {
            Verdict::BrokenAt(state) if has(broken, state) => same(answer, &told),
            Verdict::Undecided if broken == 0 => same(answer, &told),
            _ => Err(format!("expected {}", if broken == 0 { "`ok undecided ..`" } else { "an initial state that is broken" })),
        }
    }

    /// What a turn and a taking check first, in order.
    fn call_faults(&self, work: &Work, size: usize) -> Vec<Refusal> {
        let mut faults = Vec::new();
        if work.verdict != Verdict::Undecided {
            faults.push(refusal(3, 41, 0));
        }
        faults.extend(self.book_faults(work, size));
        if self.lacks_room(&work.system, work.places) {
            faults.push(refusal(3, 45, 0));
        }
        faults
    }

    /// What every call with a book checks of it, in order.
    fn book_faults(&self, work: &Work, size: usize) -> Vec<Refusal> {
        let mut faults = Vec::new();
        if size != work.places {
            faults.push(refusal(3, 42, 0));
        }
        let used = &self.memory[..work.used];
        let against = against_rules(used, work.system.relays, work.system.safety.len());
        faults.extend(against.map(|number| refusal(3, 44, number)));
        faults
    }

    /// The first of the faults must be told.
    fn first_refused(&mut self, answer: &str, faults: &[Refusal]) -> Judged {
        if let [first, later, ..] = faults {
            self.coverage.note("refused", &format!("3 {} before {} {}", first.number, later.layer, later.number));
        }
        self.refused(answer, faults[0])
    }

    fn turn(&mut self, size: usize, answer: &str) -> Judged {
        let Some(work) = self.work.take_if(|work| !work.closed) else {
            return self.none(answer);
        };
        let faults = self.call_faults(&work, size);
        let (judged, work) = if faults.is_empty() { self.turned(work, answer) } else { (self.first_refused(answer, &faults), work) };
        self.work = Some(work);
        judged
    }

    fn turned(&mut self, mut work: Work, answer: &str) -> (Judged, Work) {
        let used = &self.memory[..work.used];
        let Some(sought) = seek(&work.space, used) else {
            let (step, safety) = (&work.system.step, &work.system.safety);
            let entries: usize = used.iter().map(|entry| entry.held_literals(work.system.relays)).sum();
            self.solver.held =
                Capacity { clauses: step.len() + safety.len() + work.used, literals: literals(step) + literals(safety) + entries };
            work.verdict = Verdict::Holds;
            self.coverage.note("verdicts", "holds by a turn");
            let judged = same(answer, &format!("ok {}", work.told())).and_then(|()| holds_rightly(&work));
            return (judged, work);
        };
        self.solver.held = Capacity::default();
        if work.used == work.places {
            let promised = work.lived && work.places >= work.taken + (1 << work.system.relays);
            let judged = self.refused(answer, refusal(3, 43, 0));
            return (judged.and(if promised { Err("a turn is refused although there are 2^n places".into()) } else { Ok(()) }), work);
        }
        self.pending = Some(Turn::of(&work.space, used, sought));
        work.used += 1;
        work.turns += 1;
        if answer.starts_with("ok by-entry") {
            work.verdict = Verdict::ByEntry;
        }
        let judged = same(answer, &format!("ok {}", work.told()));
        let late = work.lived && work.turns > 1 << work.system.relays && work.verdict == Verdict::Undecided;
        (judged.and(if late { Err("expected a verdict after 2^n turns".into()) } else { Ok(()) }), work)
    }

    fn take(&mut self, size: usize, listed: &[u8], answer: &str) -> Judged {
        let Some(mut work) = self.work.take_if(|work| !work.closed) else {
            return self.none(answer);
        };
        let judged = self.took(&mut work, size, listed, answer);
        self.work = Some(work);
        judged
    }

    fn took(&mut self, work: &mut Work, size: usize, listed: &[u8], answer: &str) -> Judged {
        let mut faults = self.call_faults(work, size);
        let candidates = match read_candidates(work.system.relays, listed) {
            Ok(candidates) if faults.is_empty() => candidates,
            Ok(_) => return self.first_refused(answer, &faults),
            Err(refusal) => {
                faults.push(refusal);
                return self.first_refused(answer, &faults);
            }
        };
        self.solver.held = Capacity::default();
        let entries = taken(&work.space, &self.memory[..work.used], &candidates);
        if entries.len() > work.places - work.used {
            self.coverage.note("calls", "takings without enough places");
            return self.refused(answer, refusal(3, 43, 0));
        }
        self.coverage.taking(candidates.len(), &entries);
        self.memory[work.used..work.used + entries.len()].copy_from_slice(&entries);
        work.used += entries.len();
        work.taken += entries.len();
        same(answer, &format!("ok {}", work.told()))
    }

    /// What reading an entry or a state checks first, in order.
    fn read_faults(&self, work: &Work, size: usize) -> Vec<Refusal> {
        let mut faults = self.book_faults(work, size);
        let last = self.memory[..work.used].last();
        if work.verdict == Verdict::ByEntry && !last.is_some_and(|entry| entry.is_subgoal()) {
            faults.push(refusal(3, 44, 0));
        }
        faults
    }

    fn entry(&mut self, size: usize, number: usize, answer: &str) -> Judged {
        let Some(work) = &self.work else {
            return self.none(answer);
        };
        let mut faults = self.read_faults(work, size);
        if number >= work.used {
            faults.push(refusal(3, 31, number));
        }
        if !faults.is_empty() {
            return self.first_refused(answer, &faults);
        }
        let Entry { kind, first, second, third } = self.memory[number];
        self.coverage.note("calls", "entries read");
        same(answer, &format!("entry {} {first} {second} {third}", kind as u32))
    }

    fn state(&mut self, size: usize, number: usize, answer: &str) -> Judged {
        let Some(work) = self.work.as_ref().filter(|work| work.closed) else {
            return self.none(answer);
        };
        let mut faults = self.read_faults(work, size);
        if matches!(work.verdict, Verdict::Undecided | Verdict::Holds) {
            faults.push(refusal(3, 46, 0));
        }
        if !faults.is_empty() {
            return self.first_refused(answer, &faults);
        }
        let run = match work.verdict {
            Verdict::BrokenAt(state) => vec![state],
            _ => run_of(&self.memory[..work.used]),
        };
        match run.get(number) {
            Some(state) => {
                self.coverage.note("calls", "states of runs read");
                same(answer, &format!("state {state}"))
            }
            None => self.refused(answer, refusal(3, 31, number)),
        }
    }

    fn close(&mut self, answer: &str) -> Judged {
        match &mut self.work {
            Some(work) if !work.closed => {
                work.closed = true;
                same(answer, "closed")
            }
            _ => self.none(answer),
        }
    }

    fn junk(&mut self, place: usize, entry: Entry, answer: &str) -> Judged {
        if place < self.memory.len() {
            self.memory[place] = entry;
            if let Some(work) = &mut self.work {
                let used = place < work.used;
                work.lived &= !used;
                self.coverage.note("calls", if used { "used places overwritten" } else { "unused places overwritten" });
            }
        }
        same(answer, "junk")
    }

    /// The book as it is told; where a turn stored an entry, whether that one is right.
    fn book(&mut self, answer: &str) -> Judged {
        let words: Vec<&str> = answer.split(' ').collect();
        let entries: Option<Vec<Entry>> = words.iter().skip(2).map(|word| Entry::parse(word)).collect();
        let entries = entries.ok_or("expected entries")?;
        let pending = self.pending.take();
        if let (Some(_), Some(work)) = (&pending, &self.work) {
            let place = work.used - 1;
            self.memory[place] = *entries.get(place).ok_or("expected a place more")?;
        }
        let text: String = self.memory.iter().map(|entry| format!(" {entry}")).collect();
        same(answer, &format!("book {}{text}", self.memory.len()))?;
        match pending {
            Some(turn) => self.stored(&turn),
            None => Ok(()),
        }
    }

    /// The last entry of a turn, and what follows from it.
    fn stored(&mut self, turn: &Turn) -> Judged {
        let work = self.work.as_ref().ok_or("no work")?;
        let used = &self.memory[..work.used];
        let entry = used[work.used - 1];
        turn.judge(&work.space, &entry)?;
        let initial = entry.is_subgoal() && has(work.space.initial, entry.first);
        if initial != (work.verdict == Verdict::ByEntry) {
            return Err(format!("the verdict is {}, but {entry} is stored", work.verdict));
        }
        self.coverage.entry(entry.kind);
        let space = &work.space;
        let clause = entry.kind == Kind::Found && work.lived && space.is_safe();
        if clause && space.reached() & !entry.leaves(space) != 0 {
            return Err(format!("the clause {entry} is false in a reached state of a safe system"));
        }
        if entry.is_subgoal() {
            self.coverage.note("targets of subgoals", if entry.third < SUBGOALS { "a safety clause" } else { "a subgoal" });
        }
        if initial {
            self.coverage.note("verdicts", "broken by an entry");
            let run = run_of(used);
            if work.lived && !work.space.is_broken_run(&run) {
                return Err(format!("{run:?} is no run with a broken state"));
            }
            self.coverage.broken(run.len() - 1);
        }
        Ok(())
    }

    fn held(&mut self, answer: &str) -> Judged {
        let Solver { capacity, held } = &self.solver;
        same(answer, &format!("held {} {}", capacity.clauses - held.clauses, capacity.literals - held.literals))
    }
}

fn holds_rightly(work: &Work) -> Judged {
    if work.lived && !work.space.is_safe() {
        return Err("holds, but the system is broken".into());
    }
    Ok(())
}
