//! Names of the numbers that a sheet leaves open: what the places hold at entry, the one
//! further number of each step, and what each `call` leaves in each register.

use crate::sheet::Form::{Value, Variable};
use crate::sheet::Instruction::{Get, Put, Set, Unify};
use crate::sheet::Place::{self, Register, Slot};
use crate::sheet::StepLine::{Call, DeepGoal, DeepHead, Goal, Head};
use crate::sheet::{Instruction, Sheet, Step};
use std::collections::BTreeSet;

/// One of the numbers that are arbitrary.
#[derive(Debug, Clone, Copy, PartialEq, Eq, PartialOrd, Ord)]
pub enum Name {
    EntryRegister(u64),
    EntrySlot(u64),
    Step(usize),
    /// What a `call`, known by the number of its step, leaves in a register.
    Left {
        call: usize,
        register: u64,
    },
}

pub fn at_entry(place: Place) -> Name {
    match place {
        Register(number) => Name::EntryRegister(number),
        Slot(number) => Name::EntrySlot(number),
    }
}

/// Every name that could be looked at; some of them may never be.
pub fn names_that_occur(sheet: &Sheet) -> Vec<Name> {
    let mut occurring = Occurring::default();
    for (number, step) in sheet.steps.iter().enumerate() {
        occurring.pass(number, step);
    }
    occurring.names.into_iter().collect()
}

/// The names that have occurred while the steps are gone through.
#[derive(Default)]
struct Occurring {
    names: BTreeSet<Name>,
    last_call: Option<usize>,
    /// The places that no longer hold what they held at entry, or after the last `call`.
    written: BTreeSet<Place>,
    /// The registers of this goal's arguments.
    arguments: Vec<u64>,
}

impl Occurring {
    fn pass(&mut self, number: usize, step: &Step) {
        if may_use_its_number(step) {
            self.names.insert(Name::Step(number));
        }
        for instruction in &step.instructions {
            for place in places_read(instruction) {
                self.read(place);
            }
            self.written.extend(places_written(instruction));
        }
        match step.line {
            Head { k, .. } => _ = self.names.insert(Name::EntryRegister(k)),
            Goal { k, .. } => self.arguments.push(k),
            Call => self.call(number),
            DeepHead { .. } | DeepGoal { .. } => {}
        }
    }

    /// A place that has been written holds a name that occurred before.
    fn read(&mut self, place: Place) {
        if self.written.contains(&place) {
            return;
        }
        self.names.insert(match (place, self.last_call) {
            (Register(register), Some(call)) => Name::Left { call, register },
            _ => at_entry(place),
        });
    }

    fn call(&mut self, number: usize) {
        for k in std::mem::take(&mut self.arguments) {
            self.read(Register(k));
        }
        self.written.retain(|place| matches!(place, Slot(_)));
        self.last_call = Some(number);
    }
}

fn may_use_its_number(step: &Step) -> bool {
    match step.line {
        Head { .. } => step.instructions.iter().any(|i| matches!(i, Unify(..))),
        DeepHead { .. } | Goal { .. } | DeepGoal { .. } => true,
        Call => false,
    }
}

fn places_read(instruction: &Instruction) -> Vec<Place> {
    match *instruction {
        Get(Value, place, k) => vec![place, Register(k)],
        Get(Variable, _, k) => vec![Register(k)],
        Put(Value, place, _) | Set(Value, place) | Unify(Value, place) => vec![place],
        Put(Variable, ..) | Set(Variable, _) | Unify(Variable, _) => vec![],
    }
}

fn places_written(instruction: &Instruction) -> Vec<Place> {
    match *instruction {
        Get(Variable, place, _) | Set(Variable, place) | Unify(Variable, place) => vec![place],
        Put(Variable, place, k) => vec![place, Register(k)],
        Put(Value, _, k) => vec![Register(k)],
        Get(Value, ..) | Set(Value, _) | Unify(Value, _) => vec![],
    }
}
