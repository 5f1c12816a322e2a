//! Lists of calls: one or two works each, with wrong books, full books, junk, and solvers with too little room.

use crate::book::{Entry, Kind, SUBGOALS};
use crate::calls::Call;
use crate::damage::{damaged, listed};
use crate::format::{read_case, spell};
use crate::generate::system;
use crate::random::Random;
use crate::space::{has, Space};
use crate::system::System;
use crate::turn::{seek, Turn};
use crate::work::{room_for, Capacity};

pub fn list(random: &mut Random) -> Vec<Call> {
    let mut list = Drawn { random, calls: Vec::new(), case: System::default(), places: 0, turns: 0 };
    let works = if list.random.chance(25) { 2 } else { 1 };
    for work in 0..works {
        list.work(work == 0);
    }
    list.calls
}

struct Drawn<'a> {
    random: &'a mut Random,
    calls: Vec<Call>,
    case: System,
    places: usize,
    /// About how many turns there are until a verdict.
    turns: usize,
}

/// How many entries a judging has, of drawn ones among those that are allowed.
fn turns_of(random: &mut Random, space: &Space, places: usize) -> usize {
    let mut used: Vec<Entry> = Vec::new();
    if space.initial & !space.safe != 0 {
        return 0;
    }
    while let Some(sought) = seek(space, &used) {
        let entries = Turn::of(space, &used, sought).entries(space);
        let entry = *random.pick(&entries);
        if used.len() == places {
            break;
        }
        used.push(entry);
        if entry.is_subgoal() && has(space.initial, entry.first) {
            break;
        }
    }
    used.len()
}

impl Drawn<'_> {
    fn work(&mut self, first: bool) {
        let mut space = None;
        while space.is_none() {
            self.case = system(self.random);
            // small ones more often
            let small = self.case.relays <= 4 || self.random.chance(25);
            space = Space::of(&self.case).filter(|_| small);
        }
        let space = space.expect("was looked for");
        self.places = self.draw_places();
        self.turns = turns_of(self.random, &space, self.places);
        // a work that is opened with the solver of the one before finds what that left in it
        if first || self.random.chance(60) {
            self.solver(85);
        }
        let opened = self.open();
        self.calls.push(Call::Held);
        if !opened && self.random.chance(80) {
            self.while_none();
            return;
        }
        self.calls.push(Call::Book);
        let plain = self.random.coin();
        for _ in 0..self.turns + self.random.between(1, 4) {
            if plain {
                self.turn()
            } else {
                self.any_call()
            }
            if !plain && self.random.coin() {
                self.any_call();
            }
        }
        if self.random.chance(15) {
            self.clash();
        }
        if self.random.chance(90) {
            self.close();
        }
    }

    /// Calls with several faults at once.
    fn clash(&mut self) {
        let enough = if self.random.coin() { 100 } else { 0 };
        self.solver(enough);
        if self.random.coin() {
            self.junk(self.turns.max(1));
        }
        for _ in 0..self.random.between(1, 3) {
            let size = if self.random.coin() { self.places } else { self.places + 1 };
            let mut listed = listed(self.random, &self.case);
            if self.random.coin() {
                listed.push(1);
            }
            let number = self.random.below(self.turns + 3);
            let call = match self.random.below(4) {
                0 => Call::Turn { size },
                1 => Call::Entry { size, number },
                2 => Call::State { size, number },
                _ => Call::Take { size, listed },
            };
            self.calls.push(call);
            self.after();
        }
    }

    fn draw_places(&mut self) -> usize {
        let all = 1 << self.case.relays;
        match self.random.below(1000) {
            0..=99 => self.random.below(3),
            100..=199 => self.random.below(all + 1),
            200..=989 => all + self.random.below(12),
            990..=992 => 8192,
            _ => 8193 + self.random.below(2),
        }
    }

    /// A new solver, with enough room in so many of a hundred: often just enough, or else one less.
    fn solver(&mut self, enough: usize) {
        let Capacity { mut clauses, mut literals } = room_for(&self.case, self.places);
        if !self.random.chance(enough) {
            match self.random.below(4) {
                0 => clauses -= 1,
                1 => literals -= 1,
                2 => clauses = 0,
                _ => literals = self.random.below(literals),
            }
        } else if self.random.coin() {
            clauses += self.random.below(60);
            literals += self.random.below(60);
        }
        let counting = self.case.relays <= 3 && self.case.inputs <= 3 && self.random.coin();
        self.calls.push(Call::Solver { counting, clauses, literals });
    }

    /// Whether a work is open where the solver has enough room.
    fn open(&mut self) -> bool {
        let mut bytes = spell(&self.case);
        if self.random.chance(5) {
            bytes = damaged(self.random);
            if read_case(&bytes).is_ok() {
                bytes = vec![0; 18];
            }
        }
        let opened = read_case(&bytes).is_ok() && self.places <= 8192;
        self.calls.push(Call::Open { bytes, places: self.places });
        opened
    }

    /// Calls that do not fit where there is no work.
    fn while_none(&mut self) {
        let (size, number) = (self.places, 0);
        let calls = [
            Call::Turn { size },
            Call::Take { size, listed: vec![1, 0] },
            Call::Look,
            Call::Entry { size, number },
            Call::State { size, number },
            Call::Close,
            Call::Held,
        ];
        self.calls.extend(calls);
    }

    /// Mostly the size of the book.
    fn size(&mut self) -> usize {
        if self.random.chance(95) {
            return self.places;
        }
        *self.random.pick(&[0, self.places.saturating_sub(1), self.places + 1, self.places + 40])
    }

    fn after(&mut self) {
        self.calls.extend([Call::Book, Call::Held]);
        if self.random.chance(10) {
            self.calls.push(Call::Look);
        }
    }

    fn turn(&mut self) {
        let size = self.size();
        self.calls.push(Call::Turn { size });
        self.after();
    }

    fn take(&mut self) {
        let (size, listed) = (self.size(), listed(self.random, &self.case));
        self.calls.push(Call::Take { size, listed });
        self.after();
    }

    fn any_call(&mut self) {
        match self.random.below(100) {
            0..=49 => self.turn(),
            50..=67 => self.take(),
            68..=77 => self.read(),
            78..=85 => self.junk(self.places.max(1)),
            86..=88 => self.junk(self.turns + 1),
            89..=92 => {
                self.solver(60);
                self.turn();
                self.solver(100);
            }
            93..=94 => self.solver(100),
            95..=96 => self.calls.push(Call::Look),
            97..=98 => self.calls.extend([Call::Held, Call::Book]),
            _ => self.calls.push(Call::State { size: self.places, number: 0 }),
        }
    }

    fn read(&mut self) {
        let size = self.size();
        let number = match self.random.below(10) {
            0 => self.random.below(20_000),
            1 => *self.random.pick(&[self.places, usize::MAX]),
            _ => self.random.below(self.turns + 2),
        };
        let state = self.random.coin();
        self.calls.push(if state { Call::State { size, number } } else { Call::Entry { size, number } });
        if self.random.chance(20) {
            self.calls.extend([Call::Book, Call::Held]);
        }
    }

    /// An entry, right or not, in one of the first places.
    fn junk(&mut self, among: usize) {
        let place = self.random.below(among);
        let entry = self.any_entry(place);
        self.calls.extend([Call::Junk { place, entry }, Call::Book]);
    }

    fn any_entry(&mut self, place: usize) -> Entry {
        let states = 1usize << self.case.relays;
        let state = |random: &mut Random| random.below(states) as u32;
        let first = state(self.random);
        let clause = Entry { kind: Kind::Found, first, second: first & state(self.random), third: 0 };
        let targets = self.case.safety.len().max(1);
        let subgoal = Entry::subgoal(first, state(self.random), self.random.below(targets) as u16);
        match self.random.below(12) {
            0..=1 => clause,
            2 => Entry { kind: Kind::Taken, ..clause },
            3 => subgoal,
            4 => Entry { third: SUBGOALS + self.random.below(place + 2) as u16, ..subgoal },
            5 => Entry { third: self.case.safety.len() as u16, ..subgoal },
            6 => Entry { third: 1, ..clause },
            7 => Entry { second: first | 1 << self.random.below(32), ..clause },
            8 => Entry { first: first | 1 << self.random.between(self.case.relays, 31), ..clause },
            9 => Entry { second: states as u32 + first, ..subgoal },
            10 => {
                let [first, second] = [0; 2].map(|_| self.random.next() as u32);
                Entry { first, second, third: self.random.next() as u16, ..clause }
            }
            _ => Entry::blank(),
        }
    }

    fn close(&mut self) {
        self.calls.extend([Call::Close, Call::Look]);
        for number in 0..self.random.between(1, 3 + self.turns.min(10)) {
            let size = self.size();
            self.calls.push(Call::State { size, number });
        }
        for _ in 0..self.random.below(4) {
            self.read();
        }
        if self.random.chance(25) {
            self.junk(self.turns.max(1));
            // often the last entry of a broken work
            let (place, entry) = (self.turns.saturating_sub(1), self.any_entry(0));
            self.calls.extend([Call::Junk { place, entry }, Call::State { size: self.places, number: 0 }]);
            self.read();
        }
        if self.random.chance(10) {
            self.calls.extend([Call::Turn { size: self.places }, Call::Take { size: self.places, listed: Vec::new() }, Call::Close]);
        }
        self.calls.extend([Call::Book, Call::Held]);
    }
}
