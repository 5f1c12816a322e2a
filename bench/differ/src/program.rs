//! The program, run on the bytes of a case, and what it must print.

use crate::book::{Entry, Kind};
use crate::coverage::Coverage;
use crate::format::{read_case, Refusal};
use crate::space::{has, Space};
use crate::system::System;
use crate::turn::{seek, Turn};
use std::io::{Error, Write};
use std::process::{Command, Stdio};

const PLACES: usize = 64;
/// As much as the program reads.
const MOST_READ: usize = 32_769;

/// What the program prints for these bytes; it must end with status 0.
pub fn run(program: &str, bytes: &[u8]) -> Result<String, Error> {
    let mut child = Command::new(program).stdin(Stdio::piped()).stdout(Stdio::piped()).stderr(Stdio::null()).spawn()?;
    // a program that has read enough may close its input
    let _ = child.stdin.take().expect("piped").write_all(bytes);
    let output = child.wait_with_output()?;
    if !output.status.success() {
        return Ok(format!("ended with {}\n", output.status));
    }
    Ok(String::from_utf8_lossy(&output.stdout).into_owned())
}

/// What is still to be read of the text.
struct Text<'a>(&'a str);

impl<'a> Text<'a> {
    fn line(&mut self, expected: &str) -> Result<(), String> {
        let rest = self.0.strip_prefix(expected).and_then(|rest| rest.strip_prefix('\n'));
        self.0 = rest.ok_or_else(|| format!("expected `{expected}` at `{}`", self.0))?;
        Ok(())
    }

    /// The line of a turn that stored an entry.
    fn entry(&mut self, turn: usize, target: u16) -> Result<Entry, String> {
        let line = self.0.lines().next().unwrap_or("");
        let words: Vec<&str> = line.split(' ').collect();
        let wanted = || format!("expected an entry of turn {turn} at `{line}`");
        let ["turn", _, kind, first, second] = words[..] else {
            return Err(wanted());
        };
        let (first, second) = (first.parse().map_err(|_| wanted())?, second.parse().map_err(|_| wanted())?);
        let entry = match kind {
            "found" => Entry { kind: Kind::Found, first, second, third: 0 },
            "subgoal" => Entry::subgoal(first, second, target),
            _ => return Err(wanted()),
        };
        self.line(&format!("turn {turn} {kind} {first} {second}"))?;
        Ok(entry)
    }

    fn end(self) -> Result<(), String> {
        if self.0.is_empty() {
            Ok(())
        } else {
            Err(format!("expected the end at `{}`", self.0))
        }
    }
}

pub fn judge(bytes: &[u8], text: &str, coverage: &mut Coverage) -> Result<(), String> {
    let read = read_case(&bytes[..bytes.len().min(MOST_READ)]);
    if bytes.len() > MOST_READ {
        coverage.note("cases", "longer than the program reads");
    }
    let mut text = Text(text);
    match read {
        Err(refusal) => refused(text, refusal, coverage),
        Ok(system) => {
            let counts = system.lists().map(|list| list.len().to_string()).join(" ");
            text.line(&format!("open {} {} {counts}", system.relays, system.inputs))?;
            match Space::of(&system) {
                Some(space) => judged(&system, &space, text, coverage),
                None => unsearched(&system, text, coverage),
            }
        }
    }
}

fn refused(mut text: Text, refusal: Refusal, coverage: &mut Coverage) -> Result<(), String> {
    coverage.refusal(refusal);
    text.line(&refusal.to_string())?;
    text.end()
}

/// Of a large system just what is seen without a search.
fn unsearched(system: &System, mut text: Text, coverage: &mut Coverage) -> Result<(), String> {
    let no_step = system.step.iter().any(Vec::is_empty);
    let no_start = system.start.iter().any(Vec::is_empty);
    if system.safety.is_empty() || (no_step && no_start) {
        coverage.note("systems", "too large for a search, which hold at once");
        text.line("turn 1 holds")?;
        text.line(&format!("closed holds 0 {PLACES}"))?;
        return text.end();
    }
    coverage.note("systems", "too large for a search, only read");
    Ok(())
}

fn judged(system: &System, space: &Space, mut text: Text, coverage: &mut Coverage) -> Result<(), String> {
    coverage.depth(space.broken_depth());
    if space.initial & !space.safe != 0 {
        coverage.note("verdicts", "broken at opening");
        text.line(&format!("closed broken 0 {PLACES}"))?;
        return text.end();
    }
    let mut used: Vec<Entry> = Vec::new();
    while let Some(sought) = seek(space, &used) {
        if used.len() == PLACES {
            if 1 << system.relays <= PLACES {
                return Err("there are 2^n places".into());
            }
            return refused(text, crate::format::refusal(3, 43, 0), coverage);
        }
        let turn = Turn::of(space, &used, sought);
        let entry = text.entry(used.len() + 1, sought.target)?;
        turn.judge(space, &entry)?;
        coverage.entry(entry.kind);
        used.push(entry);
        if entry.is_subgoal() && has(space.initial, entry.first) {
            return broken(space, &used, text, coverage);
        }
    }
    coverage.note("verdicts", "holds by a turn");
    coverage.turns(used.len());
    text.line(&format!("turn {} holds", used.len() + 1))?;
    text.line(&format!("closed holds {} {PLACES}", used.len()))?;
    if !space.is_safe() {
        return Err("holds, but the system is broken".into());
    }
    text.end()
}

fn broken(space: &Space, used: &[Entry], mut text: Text, coverage: &mut Coverage) -> Result<(), String> {
    coverage.note("verdicts", "broken by an entry");
    coverage.turns(used.len());
    let run = crate::book::run_of(used);
    coverage.broken(run.len() - 1);
    if !space.is_broken_run(&run) {
        return Err(format!("{run:?} is no run with a broken state"));
    }
    text.line(&format!("closed broken {} {PLACES}", used.len()))?;
    text.end()
}
