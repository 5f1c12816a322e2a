//! The jobs of a run by kind, spread over threads, and the report of them.

use crate::calls::Call;
use crate::coverage::{Coverage, Path};
use crate::damage::{damaged, listed, marks, questions};
use crate::format::{hex, read_candidates, read_case, spell};
use crate::generate::{large, system};
use crate::library::{call_descent, call_judge, call_solver, Descent, Judging, Of};
use crate::random::Random;
use crate::space::Space;
use crate::tamper::{self, Planted};
use crate::{driver, lists, program};
use std::sync::atomic::{AtomicUsize, Ordering};
use std::sync::Mutex;

pub struct Run {
    pub seed: u64,
    pub systems: usize,
    pub mutate: bool,
    pub program: Option<String>,
    pub driver: Option<String>,
}

impl Default for Run {
    fn default() -> Run {
        Run { seed: 1, systems: 100_000, mutate: false, program: None, driver: None }
    }
}

#[derive(Clone, Copy, PartialEq, Eq, PartialOrd, Ord)]
enum Kind {
    Systems,
    Damaged,
    Candidates,
    Questions,
    Calls,
}

const KINDS: [Kind; 5] = [Kind::Systems, Kind::Damaged, Kind::Candidates, Kind::Questions, Kind::Calls];
/// How many jobs a thread takes at once; so many call lists go to one driver.
const CHUNK: usize = 1000;
/// Of so many systems, and of so many damaged cases, the program judges one.
const PROGRAM_SYSTEMS: usize = 4;
const PROGRAM_DAMAGED: usize = 2;
const MOST_PRINTED: usize = 20;

#[derive(Default)]
pub struct Report {
    pub coverage: [Coverage; 3],
    pub differences: usize,
    pub planted: Planted,
    counts: [usize; 5],
    runs: usize,
    calls: usize,
}

impl Report {
    fn merge(&mut self, other: Report) {
        for (all, path) in self.coverage.iter_mut().zip(other.coverage) {
            all.merge(path);
        }
        for (all, count) in self.counts.iter_mut().zip(other.counts) {
            *all += count;
        }
        self.differences += other.differences;
        self.planted.merge(other.planted);
        self.runs += other.runs;
        self.calls += other.calls;
    }

    pub fn last_line(&self) -> String {
        let [systems, damaged, candidates, questions, lists] = self.counts;
        format!(
            "{systems} systems, {damaged} damaged cases, {candidates} candidate lists, {questions} lists of questions, {} runs of the \
             program, {lists} call lists with {} calls: {} differences",
            self.runs, self.calls, self.differences
        )
    }

    /// Counts a difference, and prints it where there were not too many.
    fn differs(&mut self, job: &str, why: &str) {
        self.differences += 1;
        if self.differences <= MOST_PRINTED {
            println!("DIFFERENCE\n  {job}\n  {why}");
        }
    }
}

impl Run {
    fn count(&self, kind: Kind) -> usize {
        match kind {
            Kind::Systems => self.systems,
            Kind::Damaged | Kind::Candidates | Kind::Questions => self.systems / 4,
            Kind::Calls if self.driver.is_none() => 0,
            Kind::Calls => self.systems / 2,
        }
    }

    pub fn go(&self, threads: usize) -> Report {
        let mut chunks = Vec::new();
        for kind in KINDS.into_iter().rev() {
            let count = self.count(kind);
            chunks.extend((0..count).step_by(CHUNK).map(|first| (kind, first, count.min(first + CHUNK))));
        }
        let next = AtomicUsize::new(0);
        let all = Mutex::new(Report::default());
        std::thread::scope(|scope| {
            for _ in 0..threads {
                scope.spawn(|| {
                    while let Some(&(kind, first, end)) = chunks.get(next.fetch_add(1, Ordering::Relaxed)) {
                        let report = self.chunk(kind, first, end);
                        all.lock().expect("no thread fails").merge(report);
                    }
                });
            }
        });
        all.into_inner().expect("no thread fails")
    }

    fn chunk(&self, kind: Kind, first: usize, end: usize) -> Report {
        let mut report = Report::default();
        report.counts[kind as usize] = end - first;
        if kind == Kind::Calls {
            self.call_lists(first, end, &mut report);
            return report;
        }
        for number in first..end {
            let mut random = Random::of(self.seed, kind as u64, number as u64);
            match kind {
                Kind::Systems => self.system(&mut random, number, &mut report),
                Kind::Damaged => self.damaged(&mut random, number, &mut report),
                Kind::Candidates => self.candidates(&mut random, &mut report),
                _ => self.questions(&mut random, &mut report),
            }
        }
        report
    }

    /// A system goes to the library, with a drawn number of places and with a descent, and one of some to the program.
    fn system(&self, random: &mut Random, number: usize, report: &mut Report) {
        let drawn = if random.chance(1) { large(random) } else { system(random) };
        let bytes = spell(&drawn);
        assert_eq!(read_case(&bytes).as_ref(), Ok(&drawn), "the judge reads what it spells");
        self.judging(random, &bytes, report);
        let state = random.next() as u32;
        let marks = marks(random, drawn.relays);
        self.descent(random, Descent { bytes: bytes.clone(), of: Of::Literals { state }, marks }, report);
        if number.is_multiple_of(PROGRAM_SYSTEMS) {
            self.program(random, &bytes, report);
        }
    }

    fn damaged(&self, random: &mut Random, number: usize, report: &mut Report) {
        let bytes = damaged(random);
        self.judging(random, &bytes, report);
        let marks = marks(random, 4);
        let of = if random.coin() { Of::Literals { state: 3 } } else { Of::Candidates { listed: vec![1, 0] } };
        self.descent(random, Descent { bytes: bytes.clone(), of, marks }, report);
        if number.is_multiple_of(PROGRAM_DAMAGED) {
            self.program(random, &bytes, report);
        }
    }

    fn candidates(&self, random: &mut Random, report: &mut Report) {
        let drawn = system(random);
        let listed = listed(random, &drawn);
        let places = read_candidates(drawn.relays, &listed).map_or(random.below(9), |list| list.len());
        let marks = marks(random, places);
        self.descent(random, Descent { bytes: spell(&drawn), of: Of::Candidates { listed }, marks }, report);
    }

    fn judging(&self, random: &mut Random, bytes: &[u8], report: &mut Report) {
        let places = match random.below(1000) {
            0..=399 => 64,
            400..=799 => random.below(20),
            800..=990 => random.below(130),
            991..=994 => *random.pick(&[8193, 9000, usize::MAX]),
            _ => 512,
        };
        let job = Judging { bytes: bytes.to_vec(), places };
        let told = call_judge(&job);
        let coverage = &mut report.coverage[Path::Library as usize];
        let words = || format!("judge {} places {places}", hex(bytes));
        if let Err(why) = job.judge(told, coverage) {
            report.differs(&words(), &format!("{told:?}: {why}"));
        }
        self.plant(random, report, words, |random| tamper::told(random, told), |told| job.judge(told, &mut Coverage::default()));
    }

    fn descent(&self, random: &mut Random, job: Descent, report: &mut Report) {
        let came = call_descent(&job);
        let words = || {
            let of = match &job.of {
                Of::Literals { state } => format!("literals at {state}"),
                Of::Candidates { listed } => format!("candidates {}", hex(listed)),
            };
            format!("descent {} of {of}, marks {}", hex(&job.bytes), hex(&job.marks))
        };
        if let Err(why) = job.judge(&came, &mut report.coverage[Path::Library as usize]) {
            report.differs(&words(), &format!("{came:?}: {why}"));
        }
        let unsearched = read_case(&job.bytes).is_ok_and(|system| Space::of(&system).is_none());
        if self.mutate && !unsearched {
            self.plant(random, report, words, |random| tamper::descended(random, came), |came| job.judge(&came, &mut Coverage::default()));
        }
    }

    fn questions(&self, random: &mut Random, report: &mut Report) {
        let job = questions(random);
        let (code, replies) = call_solver(&job);
        let words = || {
            let (held, asked) = (hex(&job.held), hex(&job.questions));
            format!("counting {}, {} clauses, room for {} literals: {held}, asked {asked}", job.counting, job.clauses, job.literals)
        };
        if let Err(why) = job.judge((code, &replies), &mut report.coverage[Path::Library as usize]) {
            report.differs(&words(), &format!("{code} {replies:?}: {why}"));
        }
        let plant = |random: &mut Random| tamper::replied(random, (code, replies));
        self.plant(random, report, words, plant, |(code, replies)| job.judge((code, &replies), &mut Coverage::default()));
    }

    fn program(&self, random: &mut Random, bytes: &[u8], report: &mut Report) {
        let Some(path) = &self.program else {
            return;
        };
        let text = program::run(path, bytes).unwrap_or_else(|error| panic!("{path} cannot be run: {error}"));
        report.runs += 1;
        let words = || format!("program {}", hex(bytes));
        if let Err(why) = program::judge(bytes, &text, &mut report.coverage[Path::Program as usize]) {
            report.differs(&words(), &format!("printed {text:?}: {why}"));
        }
        let plant = |random: &mut Random| tamper::text(random, &text);
        self.plant(random, report, words, plant, |text| program::judge(bytes, &text, &mut Coverage::default()));
    }

    fn call_lists(&self, first: usize, end: usize, report: &mut Report) {
        let Some(path) = &self.driver else {
            return;
        };
        let list = |number| lists::list(&mut Random::of(self.seed, Kind::Calls as u64, number as u64));
        let jobs: Vec<Vec<Call>> = (first..end).map(list).collect();
        let answers = driver::run(path, &jobs).unwrap_or_else(|error| panic!("{path} cannot be run: {error}"));
        let mut rest = &answers[..];
        for (number, calls) in jobs.iter().enumerate() {
            let (own, more) = rest.split_at(calls.len().min(rest.len()));
            rest = more;
            report.calls += calls.len();
            let words = || {
                let told: Vec<String> = calls.iter().map(Call::to_string).collect();
                format!("call list {}:\n    {}", first + number, told.join("\n    "))
            };
            if let Err(why) = driver::judge(calls, own, &mut report.coverage[Path::Driver as usize]) {
                report.differs(&words(), &why);
            }
            let mut random = Random::of(self.seed, 99, (first + number) as u64);
            let plant = |random: &mut Random| tamper::lines(random, own);
            self.plant(&mut random, report, words, plant, |own| driver::judge(calls, &own, &mut Coverage::default()));
        }
        if !rest.is_empty() {
            report.differs("driver", &format!("{} answers more than calls", rest.len()));
        }
    }

    /// Where errors are to be planted, plants one and counts whether it is noted.
    fn plant<T>(
        &self,
        random: &mut Random,
        report: &mut Report,
        job: impl FnOnce() -> String,
        change: impl FnOnce(&mut Random) -> Option<(&'static str, T)>,
        judge: impl FnOnce(T) -> Result<(), String>,
    ) {
        if !self.mutate {
            return;
        }
        if let Some((kind, changed)) = change(random) {
            let noted = judge(changed).is_err();
            report.planted.add(kind, noted);
            if !noted && !Planted::is_free(kind) {
                println!("MISSED {kind}\n  {}", job());
            }
        }
    }
}
