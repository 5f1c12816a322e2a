//! The library by its calls for C, and what they must tell.

use crate::coverage::Coverage;
use crate::explore::{endings, BROKEN, HOLDS, UNDECIDED};
use crate::format::{read_candidates, read_case, Refusal, MOST_BYTES};
use crate::induction::Induction;
use crate::space::{Space, States};
use crate::system::{is_negated, variable, System};
use crate::turn::{kept_by_sets, kept_together};
use crate::work::MOST_PLACES;

/// What a judging comes to.
#[repr(C)]
#[derive(Clone, Copy, Default, Debug)]
pub struct Told {
    pub verdict: u32,
    pub turns: usize,
    pub used: usize,
    pub asked: u64,
}

#[repr(C)]
#[derive(Clone, Copy, Default, Debug)]
pub struct Reply {
    pub yes: u64,
    pub low: u64,
    pub high: u64,
}

// A slice is a pointer and then a length. Each call below hands in those of slices that outlive it.
extern "C" {
    fn hokhnebi_judge(bytes: *const u8, bytes_len: usize, places: usize, told: *mut Told) -> u32;
    fn hokhnebi_literal_descent(bytes: *const u8, bytes_len: usize, state: u32, marks: *mut u8, marks_len: usize, asked: *mut u64) -> u32;
    fn hokhnebi_candidate_descent(
        bytes: *const u8,
        bytes_len: usize,
        listed: *const u8,
        listed_len: usize,
        marks: *mut u8,
        marks_len: usize,
        asked: *mut u64,
    ) -> u32;
    fn hokhnebi_propagating(
        clauses: usize,
        literals: usize,
        held: *const u8,
        held_len: usize,
        questions: *const u8,
        questions_len: usize,
        replies: *mut Reply,
        replies_len: usize,
    ) -> u32;
    fn hokhnebi_counting(
        clauses: usize,
        literals: usize,
        held: *const u8,
        held_len: usize,
        questions: *const u8,
        questions_len: usize,
        replies: *mut Reply,
        replies_len: usize,
    ) -> u32;
}

/// What stands in `asked` and in what is told before a call.
const UNTOUCHED: u64 = 0x5A5A_5A5A_5A5A;
/// What a call of a solver answers where the clauses have more literals than there is room for.
const TOO_LITTLE_ROOM: u32 = 2;

type Judged = Result<(), String>;

fn equal<T: PartialEq + std::fmt::Debug>(what: &str, came: T, expected: T) -> Judged {
    if came == expected {
        Ok(())
    } else {
        Err(format!("{what}: expected {expected:?}, came {came:?}"))
    }
}

pub struct Judging {
    pub bytes: Vec<u8>,
    pub places: usize,
}

pub fn call_judge(job: &Judging) -> (u32, Told) {
    let mut told = Told { verdict: 77, turns: 77, used: 77, asked: UNTOUCHED };
    let code = unsafe { hokhnebi_judge(job.bytes.as_ptr(), job.bytes.len(), job.places, &mut told) };
    (code, told)
}

/// How many books the endings of a judging are sought through.
const MOST_BOOKS: usize = 100;

impl Judging {
    fn fault(&self) -> Result<System, Refusal> {
        let system = read_case(&self.bytes)?;
        if self.places > MOST_PLACES {
            Err(crate::format::refusal(3, 32, 0))
        } else {
            Ok(system)
        }
    }

    pub fn judge(&self, (code, told): (u32, Told), coverage: &mut Coverage) -> Judged {
        let system = match self.fault() {
            Ok(system) => system,
            Err(refusal) => {
                coverage.refusal(refusal);
                equal("code", code, refusal.number)?;
                let told = (told.verdict, told.turns, told.used, told.asked);
                return equal("what is told", told, (77, 77, 77, UNTOUCHED));
            }
        };
        if self.bytes.len() == MOST_BYTES {
            coverage.note("cases", "read, of the most bytes");
        }
        equal("code", code, 0)?;
        self.check_counts(&system, told)?;
        match Space::of(&system) {
            Some(space) => self.check_verdict(&space, told, coverage),
            None => {
                coverage.note("systems", "too large for a search");
                Ok(())
            }
        }
    }

    /// Turns and questions, which hang together with verdict and used places.
    fn check_counts(&self, system: &System, told: Told) -> Judged {
        let Told { verdict, turns, used, asked } = told;
        if verdict > BROKEN || used > self.places || system.relays < 32 && used > 1 << system.relays {
            return Err(format!("{told:?}"));
        }
        equal("turns", turns, used + usize::from(verdict == HOLDS))?;
        if verdict == UNDECIDED {
            equal("used places", used, self.places)?;
        }
        let (relays, safety) = (system.relays, system.safety.len());
        let a_turn = 1 + safety + (relays + 1) * (relays + 1) + relays + 1;
        // a turn that is refused has sought as well
        let tried = turns + usize::from(verdict == UNDECIDED);
        let allowed = safety + (0..tried).map(|before| a_turn + before).sum::<usize>();
        if asked > allowed as u64 {
            return Err(format!("{asked} questions were asked, {allowed} are allowed"));
        }
        Ok(())
    }

    fn check_verdict(&self, space: &Space, told: Told, coverage: &mut Coverage) -> Judged {
        coverage.depth(space.broken_depth());
        coverage.turns(told.used);
        let at_opening = space.initial & !space.safe != 0;
        match told.verdict {
            HOLDS => coverage.note("verdicts", "holds by a turn"),
            BROKEN if at_opening => coverage.note("verdicts", "broken at opening"),
            BROKEN => coverage.note("verdicts", "broken by an entry"),
            _ => coverage.note("verdicts", "undecided: a turn was refused (43)"),
        }
        let right = match told.verdict {
            HOLDS => space.is_safe(),
            BROKEN => !space.is_safe() && (told.used == 0) == at_opening,
            _ => self.places < 1 << space.relays && !at_opening,
        };
        if !right {
            return Err(format!("{told:?}, but {:?} steps lead to a broken state, at least", space.broken_depth()));
        }
        if let Some(endings) = endings(space, self.places, MOST_BOOKS) {
            coverage.note("judgings", if endings.len() == 1 { "with just one ending" } else { "with all endings known" });
            if !endings.contains(&(told.verdict, told.used)) {
                return Err(format!("{told:?} is none of the endings {endings:?}"));
            }
        }
        Ok(())
    }
}

/// A descent of the literals that are false at a state, or of a list of candidates.
pub struct Descent {
    pub bytes: Vec<u8>,
    pub of: Of,
    pub marks: Vec<u8>,
}

pub enum Of {
    Literals { state: u32 },
    Candidates { listed: Vec<u8> },
}

#[derive(Clone, Debug)]
pub struct Descended {
    pub code: u32,
    pub marks: Vec<u8>,
    pub asked: u64,
}

pub fn call_descent(job: &Descent) -> Descended {
    let mut marks = job.marks.clone();
    let mut asked = UNTOUCHED;
    let (bytes, length) = (job.bytes.as_ptr(), job.bytes.len());
    let code = match &job.of {
        Of::Literals { state } => unsafe { hokhnebi_literal_descent(bytes, length, *state, marks.as_mut_ptr(), marks.len(), &mut asked) },
        Of::Candidates { listed } => unsafe {
            hokhnebi_candidate_descent(bytes, length, listed.as_ptr(), listed.len(), marks.as_mut_ptr(), marks.len(), &mut asked)
        },
    };
    Descended { code, marks, asked }
}

impl Descent {
    /// The system, the candidates where the descent is of some, and how many places there are.
    fn fault(&self) -> Result<(System, Vec<Vec<u8>>, usize), Refusal> {
        let system = read_case(&self.bytes)?;
        let candidates = match &self.of {
            Of::Literals { .. } => Vec::new(),
            Of::Candidates { listed } => read_candidates(system.relays, listed)?,
        };
        let places = if let Of::Literals { .. } = self.of { system.relays } else { candidates.len() };
        if self.marks.len() != places {
            return Err(crate::format::refusal(3, 33, 0));
        }
        match self.marks.iter().position(|&mark| mark > 1) {
            Some(place) => Err(crate::format::refusal(3, 33, place)),
            None => Ok((system, candidates, places)),
        }
    }

    pub fn judge(&self, came: &Descended, coverage: &mut Coverage) -> Judged {
        let (system, candidates, places) = match self.fault() {
            Ok(read) => read,
            Err(refusal) => {
                coverage.refusal(refusal);
                equal("code", came.code, refusal.number)?;
                equal("marks", &came.marks, &self.marks)?;
                return equal("questions", came.asked, UNTOUCHED);
            }
        };
        equal("code", came.code, 0)?;
        let most = if let Of::Literals { .. } = self.of { places + 1 } else { (places + 1) * places.max(1) };
        if came.asked > most as u64 {
            return Err(format!("{} questions were asked, {most} are allowed", came.asked));
        }
        let Some(space) = Space::of(&system) else {
            coverage.note("descents", "too large for a search");
            let grown = came.marks.iter().zip(&self.marks).any(|(after, before)| after > before);
            return equal("marks grew", grown, false);
        };
        let expected = match &self.of {
            Of::Literals { state } => self.literals(&space, *state),
            Of::Candidates { .. } => self.candidates(&space, &candidates),
        };
        let what = if let Of::Literals { .. } = self.of { "literals" } else { "candidates" };
        let sum = |marks: &[u8]| marks.iter().map(|&mark| usize::from(mark)).sum::<usize>();
        coverage.note(
            "descents",
            &match (sum(&expected), sum(&self.marks)) {
                (_, 0) => format!("{what}, nothing marked"),
                (0, _) => format!("{what}, nothing stays"),
                (kept, marked) if kept == marked => format!("{what}, all stay"),
                _ => format!("{what}, some stay"),
            },
        );
        equal("marks", &came.marks, &expected)
    }

    fn literals(&self, space: &Space, state: u32) -> Vec<u8> {
        let given = self.marks.iter().enumerate().fold(0, |relays, (relay, &mark)| relays | u32::from(mark) << relay);
        let state = state & ((1u32 << space.relays) - 1);
        let kept = Induction::of(space, space.safe).descended(state, given);
        (0..space.relays).map(|relay| (kept >> relay & 1) as u8).collect()
    }

    fn candidates(&self, space: &Space, candidates: &[Vec<u8>]) -> Vec<u8> {
        let truths: Vec<States> = candidates.iter().map(|clause| space.truth(clause)).collect();
        let marks: Vec<bool> = self.marks.iter().map(|&mark| mark == 1).collect();
        let kept = kept_together(space, space.safe, &truths, marks.clone());
        if truths.len() <= 5 {
            assert_eq!(kept, kept_by_sets(space, space.safe, &truths, &marks), "the judge's own descents differ");
        }
        kept.into_iter().map(u8::from).collect()
    }
}

/// Questions to a solver that holds a list of clauses.
pub struct Questions {
    pub counting: bool,
    pub clauses: usize,
    pub literals: usize,
    pub held: Vec<u8>,
    pub questions: Vec<u8>,
    pub replies: usize,
}

pub fn call_solver(job: &Questions) -> (u32, Vec<Reply>) {
    let mut replies = vec![Reply { yes: 77, low: UNTOUCHED, high: UNTOUCHED }; job.replies];
    let call = if job.counting { hokhnebi_counting } else { hokhnebi_propagating };
    let (held, questions) = (&job.held, &job.questions);
    let code = unsafe {
        call(job.clauses, job.literals, held.as_ptr(), held.len(), questions.as_ptr(), questions.len(), replies.as_mut_ptr(), replies.len())
    };
    (code, replies)
}

/// The first so many clauses that lie in the bytes, each cut at the end.
fn clauses_in(bytes: &[u8], count: usize) -> Vec<Vec<u8>> {
    let mut rest = bytes;
    let mut clauses = Vec::new();
    for _ in 0..count {
        let Some((&length, more)) = rest.split_first() else {
            clauses.push(Vec::new());
            continue;
        };
        let (clause, more) = more.split_at(more.len().min(usize::from(length)));
        clauses.push(clause.to_vec());
        rest = more;
    }
    clauses
}

fn is_true(literal: u8, (low, high): (u64, u64)) -> bool {
    let variable = variable(literal);
    let value = if variable < 64 { low >> variable } else { high >> (variable - 64) } & 1 == 1;
    value != is_negated(literal)
}

/// Whether some valuation makes the clauses and the assumed literals true, over the variables that occur.
fn can_be_true(clauses: &[Vec<u8>], assumed: &[u8]) -> bool {
    let mut occurring: Vec<usize> = clauses.iter().flatten().chain(assumed).map(|&literal| variable(literal)).collect();
    occurring.sort_unstable();
    occurring.dedup();
    assert!(occurring.len() <= 12, "too many variables to go through");
    (0..1u32 << occurring.len()).any(|values| {
        let mut valuation = (0, 0);
        for (number, &variable) in occurring.iter().enumerate() {
            let value = u64::from(values >> number & 1);
            if variable < 64 {
                valuation.0 |= value << variable
            } else {
                valuation.1 |= value << (variable - 64)
            }
        }
        makes_true(clauses, assumed, valuation)
    })
}

fn makes_true(clauses: &[Vec<u8>], assumed: &[u8], valuation: (u64, u64)) -> bool {
    clauses.iter().all(|clause| clause.iter().any(|&literal| is_true(literal, valuation)))
        && assumed.iter().all(|&literal| is_true(literal, valuation))
}

impl Questions {
    pub fn judge(&self, (code, replies): (u32, &[Reply]), coverage: &mut Coverage) -> Judged {
        let held = clauses_in(&self.held, self.clauses);
        if held.iter().map(Vec::len).sum::<usize>() > self.literals {
            coverage.note("questions", "more literals than there is room for");
            return equal("code", code, TOO_LITTLE_ROOM);
        }
        equal("code", code, 0)?;
        for (number, assumed) in clauses_in(&self.questions, self.replies).iter().enumerate() {
            let Reply { yes, low, high } = replies[number];
            let can = can_be_true(&held, assumed);
            coverage.note("questions", if can { "yes" } else { "no" });
            equal("yes", yes, u64::from(can))?;
            if can && !makes_true(&held, assumed, (low, high)) {
                return Err(format!("question {number}: the valuation {low} {high} leaves something false"));
            }
        }
        Ok(())
    }
}
