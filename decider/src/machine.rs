//! The machine: 63 registers and 63 slots, run on numbers.

use crate::limits::REGISTERS;
use crate::names::Name;
use crate::outcome::{Number, Numbers, Outcome};
use crate::sheet::Form::{Value, Variable};
use crate::sheet::Instruction::{Get, Put, Set, Unify};
use crate::sheet::Place::{Register, Slot};
use crate::sheet::StepLine::{Call, Goal};
use crate::sheet::{Instruction, Place, Sheet};

/// Room for 1 up to the last register; number 0 stays empty.
const ROOM: usize = REGISTERS as usize + 1;

/// Of all registers, or of all slots. What has no number is never looked at.
type Contents = [Option<Number>; ROOM];

struct Machine<'numbers> {
    numbers: &'numbers Numbers,
    registers: Contents,
    slots: Contents,
    outcome: Outcome,
}

pub fn run(sheet: &Sheet, numbers: &Numbers) -> Outcome {
    let mut machine = Machine::at_entry(numbers);
    let mut arguments = Vec::new();
    for (number, step) in sheet.steps.iter().enumerate() {
        for instruction in &step.instructions {
            machine.carry_out(number, *instruction);
        }
        match step.line {
            Goal { k, .. } => arguments.push(k),
            Call => machine.call(number, std::mem::take(&mut arguments)),
            _ => {}
        }
    }
    machine.outcome
}

fn contents(numbers: &Numbers, name: impl Fn(u64) -> Name) -> Contents {
    std::array::from_fn(|number| numbers.get(name(number as u64)))
}

impl<'numbers> Machine<'numbers> {
    fn at_entry(numbers: &'numbers Numbers) -> Self {
        Machine {
            numbers,
            registers: contents(numbers, Name::EntryRegister),
            slots: contents(numbers, Name::EntrySlot),
            outcome: Outcome::default(),
        }
    }

    fn carry_out(&mut self, step: usize, instruction: Instruction) {
        match instruction {
            Get(Variable, place, k) => self.copy(Register(k), place),
            Get(Value, place, k) => self.demand(self.read(place), self.read(Register(k))),
            Put(Variable, place, k) => {
                self.write(place, Some(self.number_of(step)));
                self.write(Register(k), Some(self.number_of(step)));
            }
            Put(Value, place, k) => self.copy(place, Register(k)),
            Set(Variable, place) | Unify(Variable, place) => {
                self.write(place, Some(self.number_of(step)));
                self.add_subterm(step, self.number_of(step));
            }
            Set(Value, place) => self.add_subterm(step, self.read(place)),
            Unify(Value, place) => {
                self.demand(self.read(place), self.number_of(step));
                self.add_subterm(step, self.number_of(step));
            }
        }
    }

    /// `call` reads arguments, then leaves a number of its own in every register.
    fn call(&mut self, call: usize, arguments: Vec<u64>) {
        for k in arguments {
            self.outcome.arguments.push(self.read(Register(k)));
        }
        let left = |register| Name::Left { call, register };
        self.registers = contents(self.numbers, left);
    }

    fn number_of(&self, step: usize) -> Number {
        self.numbers.of(Name::Step(step))
    }

    fn demand(&mut self, one: Number, other: Number) {
        self.outcome.demands.push((one, other));
    }

    fn add_subterm(&mut self, step: usize, number: Number) {
        self.outcome.subterms.push((step, number));
    }

    /// A copy is no look: what has no number may be copied.
    fn copy(&mut self, from: Place, to: Place) {
        self.write(to, self.content(from));
    }

    fn read(&self, place: Place) -> Number {
        self.content(place).expect("a place looked at has a number")
    }

    fn content(&self, place: Place) -> Option<Number> {
        match place {
            Register(number) => self.registers[number as usize],
            Slot(number) => self.slots[number as usize],
        }
    }

    fn write(&mut self, place: Place, content: Option<Number>) {
        match place {
            Register(number) => self.registers[number as usize] = content,
            Slot(number) => self.slots[number as usize] = content,
        }
    }
}
