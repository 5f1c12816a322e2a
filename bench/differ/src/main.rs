//! Judges random jobs by brute force and by the documents, and compares what the program, the library and the driver of
//! call lists answer. `bench/differ.sh` builds it all and runs it.

mod book;
mod calls;
mod coverage;
mod damage;
mod driver;
mod explore;
mod format;
mod generate;
mod induction;
mod jobs;
mod library;
mod lists;
mod program;
mod random;
mod space;
mod system;
mod tamper;
mod turn;
mod work;

use jobs::{Report, Run};
use std::process::ExitCode;

const USAGE: &str = "differ [N] [--seed SEED] [--threads T] [--mutate] [--program PATH] [--driver PATH]";

struct Options {
    run: Run,
    threads: usize,
}

fn parse(mut words: impl Iterator<Item = String>) -> Option<Options> {
    let threads = std::thread::available_parallelism().map_or(1, usize::from);
    let mut options = Options { run: Run::default(), threads };
    while let Some(word) = words.next() {
        match word.as_str() {
            "--mutate" => options.run.mutate = true,
            "--seed" => options.run.seed = words.next()?.parse().ok()?,
            "--threads" => options.threads = words.next()?.parse().ok().filter(|&threads| threads > 0)?,
            "--program" => options.run.program = Some(words.next()?),
            "--driver" => options.run.driver = Some(words.next()?),
            count => options.run.systems = count.parse().ok()?,
        }
    }
    Some(options)
}

/// The refusals that can be met from outside, by layer and number.
const REFUSALS: [&str; 20] = [
    "2 11", "2 12", "2 13", "2 14", "2 15", "2 16", "1 17", "1 18", "1 19", "2 20", "3 21", "3 31", "3 32", "3 33", "3 41", "3 42", "3 43",
    "3 44", "3 45", "3 46",
];

/// Prints which refusals were not met by any way, and says whether there are some.
fn lacks_refusals(report: &Report) -> bool {
    let met = |refusal: &str| report.coverage.iter().any(|path| path.count("refused", refusal) > 0);
    let lacking: Vec<&str> = REFUSALS.into_iter().filter(|refusal| !met(refusal)).collect();
    if !lacking.is_empty() {
        println!("refusals that were not met: {}", lacking.join(", "));
    }
    !lacking.is_empty()
}

fn main() -> ExitCode {
    let Some(options) = parse(std::env::args().skip(1)) else {
        eprintln!("usage: {USAGE}");
        return ExitCode::from(2);
    };
    println!("seed {}, {} threads", options.run.seed, options.threads);
    let report = options.run.go(options.threads);
    coverage::print_table(&report.coverage);
    if options.run.mutate {
        let right = report.planted.print();
        let (planted, noted) = report.planted.0.values().fold((0, 0), |sum, kind| (sum.0 + kind.0, sum.1 + kind.1));
        println!("{planted} planted errors, {noted} noted: {}", if right { "the judge notes them" } else { "some were missed" });
        return if right && report.differences == 0 { ExitCode::SUCCESS } else { ExitCode::FAILURE };
    }
    let whole = options.run.program.is_some() && options.run.driver.is_some() && options.run.systems >= 10_000;
    let lacking = lacks_refusals(&report) && whole;
    println!("{}", report.last_line());
    if report.differences == 0 && !lacking {
        ExitCode::SUCCESS
    } else {
        ExitCode::FAILURE
    }
}
