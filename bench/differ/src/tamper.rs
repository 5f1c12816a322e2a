//! Planted errors: an answer is changed before it is judged, to see that the judge notes it.

use crate::library::{Descended, Reply, Told};
use crate::random::Random;
use std::collections::BTreeMap;

/// How many errors of each kind were planted, and how many of them noted.
#[derive(Default)]
pub struct Planted(pub BTreeMap<&'static str, (u64, u64)>);

/// Kinds after which the answer may be another right one, since it was free.
const FREE: [&str; 2] = ["an entry's bit", "broken for undecided"];

impl Planted {
    pub fn add(&mut self, kind: &'static str, noted: bool) {
        let counts = self.0.entry(kind).or_default();
        counts.0 += 1;
        counts.1 += u64::from(noted);
    }

    pub fn is_free(kind: &str) -> bool {
        FREE.contains(&kind)
    }

    pub fn merge(&mut self, other: Planted) {
        for (kind, (planted, noted)) in other.0 {
            let counts = self.0.entry(kind).or_default();
            counts.0 += planted;
            counts.1 += noted;
        }
    }

    /// Prints the table; whether all were noted but of the kinds that may be free, and of these two thirds.
    pub fn print(&self) -> bool {
        println!("| {:28} | {:>8} | {:>8} |", "planted", "planted", "noted");
        println!("|{}|{}:|{}:|", "-".repeat(30), "-".repeat(9), "-".repeat(9));
        let mut right = !self.0.is_empty();
        for (kind, &(planted, noted)) in &self.0 {
            println!("| {kind:28} | {planted:>8} | {noted:>8} |");
            right &= if Planted::is_free(kind) { 3 * noted >= 2 * planted } else { noted == planted };
        }
        right
    }
}

/// A text with one number of a word changed.
fn with_number(words: &[&str], at: usize, change: impl FnOnce(u64) -> u64) -> Option<String> {
    let number: u64 = words.get(at)?.parse().ok()?;
    let mut words: Vec<String> = words.iter().map(|word| word.to_string()).collect();
    words[at] = change(number).to_string();
    Some(words.join(" "))
}

fn flip(random: &mut Random, bits: usize) -> impl FnOnce(u64) -> u64 {
    let bit = random.below(bits);
    move |number| number ^ 1 << bit
}

fn with_verdict(random: &mut Random, line: &str) -> Option<String> {
    let verdicts = ["undecided", "holds", "broken:0", "by-entry"];
    let old = line.split(' ').nth(1)?;
    let new = *random.pick(&verdicts);
    (!old.starts_with(new.split(':').next()?)).then(|| line.replacen(old, new, 1))
}

/// A line of the program or the driver with an error, and of what kind.
pub fn line(random: &mut Random, line: &str) -> Option<(&'static str, String)> {
    let words: Vec<&str> = line.split(' ').collect();
    match words[0] {
        "refused" => Some(("a place off by one", with_number(&words, 3, |place| place.wrapping_add(1))?)),
        "ok" | "look" if random.coin() => Some(("a verdict", with_verdict(random, line)?)),
        "ok" | "look" => Some(("a count off by one", with_number(&words, 2, |used| used + 1)?)),
        "open" | "held" => Some(("a count off by one", with_number(&words, random.between(1, words.len() - 1), |count| count + 1)?)),
        "closed" if words.len() == 1 => None,
        "closed" if random.coin() => {
            let flipped = if words[1] == "holds" { line.replacen("holds", "broken", 1) } else { line.replacen("broken", "holds", 1) };
            Some(("a verdict", flipped))
        }
        "closed" => Some(("a count off by one", with_number(&words, 2, |used| used + 1)?)),
        "turn" if words.len() == 3 => Some(("a verdict", line.replacen("holds", "found 0 0", 1))),
        "turn" => Some(("an entry's bit", with_number(&words, random.between(3, 4), flip(random, 7))?)),
        "state" => Some(("a run's bit", with_number(&words, 1, flip(random, 7))?)),
        "entry" => Some(("a read entry's bit", with_number(&words, random.between(1, 4), flip(random, 2))?)),
        "book" if words.len() > 2 => book(random, &words),
        _ => None,
    }
}

fn book(random: &mut Random, words: &[&str]) -> Option<(&'static str, String)> {
    let at = random.between(2, words.len() - 1);
    let parts: Vec<&str> = words[at].split(':').collect();
    let part = random.below(4);
    let bits = [2, 7, 7, 9][part];
    let flipped = with_number(&parts, part, flip(random, bits))?.replace(' ', ":");
    let mut words = words.to_vec();
    words[at] = &flipped;
    Some(("an entry's bit", words.join(" ")))
}

/// Some line with an error, of many; which one.
pub fn lines(random: &mut Random, lines: &[String]) -> Option<(&'static str, Vec<String>)> {
    // of some lines the rarest kinds of answers are taken first
    let rare = |line: &str| ["state", "entry", "look", "refused"].iter().position(|kind| line.starts_with(kind)).unwrap_or(9);
    let at = (0..3).map(|_| random.below(lines.len().max(1))).min_by_key(|&at| lines.get(at).map_or(9, |line| rare(line)))?;
    let (kind, changed) = line(random, lines.get(at)?)?;
    let mut lines = lines.to_vec();
    lines[at] = changed;
    Some((kind, lines))
}

/// A text with an error in one line.
pub fn text(random: &mut Random, text: &str) -> Option<(&'static str, String)> {
    let all: Vec<String> = text.lines().map(str::to_string).collect();
    let (kind, changed) = lines(random, &all)?;
    Some((kind, changed.join("\n") + "\n"))
}

pub fn told(random: &mut Random, (code, mut told): (u32, Told)) -> Option<(&'static str, (u32, Told))> {
    if code != 0 {
        return Some(("a code off by one", (code + 1, told)));
    }
    let kind = match random.below(4) {
        0 => {
            let before = told.verdict;
            told.verdict = (before + random.between(1, 2) as u32) % 3;
            if before + told.verdict == 2 {
                "broken for undecided"
            } else {
                "a verdict"
            }
        }
        1 => {
            told.turns += 1;
            "a count off by one"
        }
        2 => {
            told.used += 1;
            "a count off by one"
        }
        _ => return Some(("a code off by one", (code + 1, told))),
    };
    Some((kind, (code, told)))
}

pub fn descended(random: &mut Random, mut came: Descended) -> Option<(&'static str, Descended)> {
    if came.marks.is_empty() || random.chance(20) {
        came.code += 1;
        return Some(("a code off by one", came));
    }
    let at = random.below(came.marks.len());
    came.marks[at] ^= 1;
    Some(("a mark", came))
}

type Replied = (u32, Vec<Reply>);

pub fn replied(random: &mut Random, (code, mut replies): Replied) -> Option<(&'static str, Replied)> {
    if code != 0 || replies.is_empty() {
        return Some(("a code off by one", (code + 1, replies)));
    }
    let at = random.below(replies.len());
    replies[at].yes ^= 1;
    Some(("a verdict", (code, replies)))
}
