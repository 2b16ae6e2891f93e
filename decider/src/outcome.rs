//! Numbers for the names, and what a sheet does on them.

use crate::names::Name;
use std::collections::BTreeMap;

pub type Number = usize;

/// A choice of the numbers that are arbitrary.
pub struct Numbers {
    chosen: BTreeMap<Name, Number>,
}

/// What the machine does, or what is wanted of it, on given numbers.
#[derive(Default)]
pub struct Outcome {
    /// Pairs that are demanded to be equal.
    pub demands: Vec<(Number, Number)>,
    /// The subterm list: steps and numbers.
    pub subterms: Vec<(usize, Number)>,
    /// For every `call` in order, the numbers of its arguments in the order of its steps.
    pub arguments: Vec<Number>,
}

impl Numbers {
    /// The names' numbers, in the order of the names.
    pub fn new(names: &[Name], numbers: &[Number]) -> Self {
        let chosen = names.iter().copied().zip(numbers.iter().copied());
        Numbers {
            chosen: chosen.collect(),
        }
    }

    pub fn of(&self, name: Name) -> Number {
        self.chosen[&name]
    }

    pub fn get(&self, name: Name) -> Option<Number> {
        self.chosen.get(&name).copied()
    }

    /// Puts one number in the place of another, wherever it stands.
    pub fn substitute(&mut self, old: Number, new: Number) {
        for number in self.chosen.values_mut().filter(|number| **number == old) {
            *number = new;
        }
    }
}

impl Outcome {
    pub fn demands_hold(&self) -> bool {
        self.demands.iter().all(|(one, other)| one == other)
    }
}

/// Whether the machine does what is wanted, on these numbers: both demand or neither, and
/// where the equalities hold, subterm lists and arguments are the same.
pub fn agree(machine: &Outcome, wanted: &Outcome) -> bool {
    match (machine.demands_hold(), wanted.demands_hold()) {
        (true, true) => {
            machine.subterms == wanted.subterms && machine.arguments == wanted.arguments
        }
        (holds, is_wanted) => holds == is_wanted,
    }
}
