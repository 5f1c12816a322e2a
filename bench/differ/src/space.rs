//! All states of a small system, by brute force: a set of states is a number of 128 bits, one for each state.

use crate::system::{is_negated, variable, Clause, System, AFTER, INPUT};

pub type States = u128;

pub const MOST_SPACE_RELAYS: usize = 7;
const MOST_SPACE_INPUTS: usize = 10;

pub struct Space {
    pub relays: usize,
    pub all: States,
    pub initial: States,
    pub safe: States,
    /// For each safety clause the states that make it false.
    pub breaking: Vec<States>,
    /// For each state those that a step leads to.
    pub next: Vec<States>,
    on: Vec<States>,
}

pub fn members(mut states: States) -> impl Iterator<Item = u32> {
    std::iter::from_fn(move || {
        if states == 0 {
            return None;
        }
        let state = states.trailing_zeros();
        states &= states - 1;
        Some(state)
    })
}

pub fn has(states: States, state: u32) -> bool {
    state < 128 && states >> state & 1 == 1
}

pub fn all_states(relays: usize) -> States {
    if relays == MOST_SPACE_RELAYS {
        States::MAX
    } else {
        (1 << (1 << relays)) - 1
    }
}

/// The states in which a relay is on.
pub fn on(relays: usize, relay: usize) -> States {
    (0..1u32 << relays).filter(|state| state >> relay & 1 == 1).fold(0, |states, state| states | 1 << state)
}

/// What a step clause says: under which inputs it is true, from which states, and in which states after it.
struct StepClause {
    inputs: Vec<(usize, bool)>,
    before: States,
    after: States,
}

impl Space {
    /// None where there are too many states or inputs to go through.
    pub fn of(system: &System) -> Option<Space> {
        let relays = system.relays;
        let inputs = inputs_of(system);
        if relays > MOST_SPACE_RELAYS || inputs.len() > MOST_SPACE_INPUTS {
            return None;
        }
        let on = (0..relays).map(|relay| on(relays, relay)).collect();
        let all = all_states(relays);
        let mut space = Space { relays, all, initial: all, safe: all, breaking: Vec::new(), next: Vec::new(), on };
        space.initial = space.truth_of_all(&system.start);
        space.safe = space.truth_of_all(&system.safety);
        space.breaking = system.safety.iter().map(|clause| all & !space.truth(clause)).collect();
        space.next = space.steps(system, &inputs);
        Some(space)
    }

    /// The states that make a clause over relays true.
    pub fn truth(&self, clause: &[u8]) -> States {
        self.truth_from(clause, 0)
    }

    pub fn truth_of_all(&self, clauses: &[Clause]) -> States {
        clauses.iter().fold(self.all, |states, clause| states & self.truth(clause))
    }

    /// Where some literal is true whose variable is a relay's, counted from `first` on.
    fn truth_from(&self, clause: &[u8], first: usize) -> States {
        let mut states = 0;
        for &literal in clause {
            let variable = variable(literal);
            if (first..first + self.relays).contains(&variable) {
                let on = self.on[variable - first];
                states |= if is_negated(literal) { self.all & !on } else { on };
            }
        }
        states
    }

    fn steps(&self, system: &System, inputs: &[usize]) -> Vec<States> {
        let clauses: Vec<StepClause> = system.step.iter().map(|clause| self.step_clause(clause)).collect();
        let mut next = vec![0; 1 << self.relays];
        for values in 0..1usize << inputs.len() {
            let open: Vec<&StepClause> = clauses.iter().filter(|clause| !clause.is_met(inputs, values)).collect();
            for (state, after) in next.iter_mut().enumerate() {
                let bound = open.iter().filter(|clause| !has(clause.before, state as u32));
                *after |= bound.fold(self.all, |states, clause| states & clause.after);
            }
        }
        next
    }

    fn step_clause(&self, clause: &Clause) -> StepClause {
        let inputs = clause.iter().filter(|&&literal| variable(literal) >= INPUT);
        StepClause {
            inputs: inputs.map(|&literal| (variable(literal), !is_negated(literal))).collect(),
            before: self.truth_from(clause, 0),
            after: self.truth_from(clause, AFTER),
        }
    }

    /// The states that a step leads to from some of these.
    pub fn after(&self, from: States) -> States {
        members(from).fold(0, |states, state| states | self.next[state as usize])
    }

    /// The initial states, then for each number of steps those that are first reached by so many.
    pub fn layers(&self) -> Vec<States> {
        let mut layers = vec![self.initial];
        let mut seen = self.initial;
        loop {
            let more = self.after(layers[layers.len() - 1]) & !seen;
            if more == 0 {
                return layers;
            }
            seen |= more;
            layers.push(more);
        }
    }

    pub fn reached(&self) -> States {
        self.layers().into_iter().fold(0, |states, layer| states | layer)
    }

    /// How many steps lead to a broken state, at least; none where the system is safe.
    pub fn broken_depth(&self) -> Option<usize> {
        self.layers().iter().position(|layer| layer & !self.safe != 0)
    }

    pub fn is_safe(&self) -> bool {
        self.broken_depth().is_none()
    }

    /// Whether these states are a run with a broken state.
    pub fn is_broken_run(&self, run: &[u32]) -> bool {
        let linked = run.windows(2).all(|pair| has(self.all, pair[0]) && has(self.next[pair[0] as usize], pair[1]));
        !run.is_empty() && has(self.initial, run[0]) && linked && run.iter().any(|&state| has(self.all & !self.safe, state))
    }
}

impl StepClause {
    fn is_met(&self, inputs: &[usize], values: usize) -> bool {
        self.inputs.iter().any(|&(variable, value)| {
            let number = inputs.iter().position(|&input| input == variable).expect("an input that occurs");
            (values >> number & 1 == 1) == value
        })
    }
}

/// The inputs that occur.
fn inputs_of(system: &System) -> Vec<usize> {
    let mut inputs: Vec<usize> =
        system.step.iter().flatten().map(|&literal| variable(literal)).filter(|&variable| variable >= INPUT).collect();
    inputs.sort_unstable();
    inputs.dedup();
    inputs
}
