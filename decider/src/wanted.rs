//! What is wanted of the machine, on numbers.

use crate::limits::LAST_VARIABLE;
use crate::names::Name;
use crate::outcome::{Number, Numbers, Outcome};
use crate::sheet::Sheet;
use crate::sheet::StepLine::{Call, DeepGoal, DeepHead, Goal, Head};

/// What is known while the steps are gone through.
struct Wanted<'numbers> {
    numbers: &'numbers Numbers,
    /// The value of each variable that has had its first step.
    values: [Option<Number>; LAST_VARIABLE as usize + 1],
    /// The values of this goal's arguments.
    goal: Vec<Number>,
    outcome: Outcome,
}

pub fn wanted(sheet: &Sheet, numbers: &Numbers) -> Outcome {
    let mut wanted = Wanted {
        numbers,
        values: [None; LAST_VARIABLE as usize + 1],
        goal: Vec::new(),
        outcome: Outcome::default(),
    };
    for (number, step) in sheet.steps.iter().enumerate() {
        match step.line {
            Head { k, v } => wanted.head(v, Name::EntryRegister(k)),
            DeepHead { v } => {
                wanted.head(v, Name::Step(number));
                wanted.deep(number, v);
            }
            Goal { v, .. } => {
                let value = wanted.value(v, Name::Step(number));
                wanted.goal.push(value);
            }
            DeepGoal { v } => wanted.deep(number, v),
            Call => wanted.outcome.arguments.append(&mut wanted.goal),
        }
    }
    wanted.outcome
}

impl Wanted<'_> {
    /// A variable's value is fixed by its first step.
    fn value(&mut self, v: u64, first: Name) -> Number {
        *self.values[v as usize].get_or_insert_with(|| self.numbers.of(first))
    }

    /// A later head step demands equality; at the first one it holds by itself.
    fn head(&mut self, v: u64, here: Name) {
        let value = self.value(v, here);
        let demand = (value, self.numbers.of(here));
        self.outcome.demands.push(demand);
    }

    fn deep(&mut self, step: usize, v: u64) {
        let value = self.value(v, Name::Step(step));
        self.outcome.subterms.push((step, value));
    }
}
