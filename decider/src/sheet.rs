//! A check sheet: its steps with their instructions, and the reading of it line by line.

use crate::limits::{INSTRUCTIONS, LAST_VARIABLE, REGISTERS, STEPS};
use crate::lines::{Line, read_line};
use crate::refusal::Refused;
use Form::{Value, Variable};
use Instruction::{Get, Put, Set, Unify};
use Place::{Register, Slot};
use StepLine::{Call, DeepGoal, DeepHead, Goal, Head};
use judging::refusal::Refusal;

#[derive(Debug, Clone, Copy, PartialEq, Eq)]
pub enum StepLine {
    Head { k: u64, v: u64 },
    DeepHead { v: u64 },
    Goal { k: u64, v: u64 },
    DeepGoal { v: u64 },
    Call,
}

#[derive(Debug, Clone, Copy, PartialEq, Eq, PartialOrd, Ord)]
pub enum Place {
    Register(u64),
    Slot(u64),
}

#[derive(Debug, Clone, Copy, PartialEq, Eq)]
pub enum Form {
    Variable,
    Value,
}

#[derive(Debug, Clone, Copy, PartialEq, Eq)]
pub enum Instruction {
    Get(Form, Place, u64),
    Put(Form, Place, u64),
    Set(Form, Place),
    Unify(Form, Place),
}

pub struct Step {
    pub line: StepLine,
    pub instructions: Vec<Instruction>,
}

#[derive(Default)]
pub struct Sheet {
    pub steps: Vec<Step>,
}

/// Reads a whole sheet. The first bad line decides; a missing `call` is reported last.
pub fn read_sheet(bytes: &[u8]) -> Result<Sheet, Refused> {
    let mut sheet = Sheet::default();
    let mut last_line = 0;
    for line in bytes.split_inclusive(|byte| *byte == b'\n') {
        last_line += 1;
        sheet
            .take_line(line)
            .map_err(|refusal| (last_line, refusal))?;
    }
    if sheet.this_goal().any(is_goal_step) {
        return Err((last_line, Refusal::Order));
    }
    Ok(sheet)
}

impl Sheet {
    fn take_line(&mut self, line: &[u8]) -> Result<(), Refusal> {
        let text = line.strip_suffix(b"\n").ok_or(Refusal::Form)?;
        match read_line(text).ok_or(Refusal::Form)? {
            Line::Step(line) => self.take_step(line),
            Line::Instruction(instruction) => self.take_instruction(instruction),
        }
    }

    fn take_step(&mut self, line: StepLine) -> Result<(), Refusal> {
        refuse(self.step_is_forbidden(line), Refusal::Order)?;
        refuse(!step_is_inside_sizes(line), Refusal::Size)?;
        refuse(self.steps.len() == STEPS, Refusal::Full)?;
        self.steps.push(Step {
            line,
            instructions: Vec::new(),
        });
        Ok(())
    }

    fn take_instruction(&mut self, instruction: Instruction) -> Result<(), Refusal> {
        let step = self.steps.last_mut().ok_or(Refusal::Order)?;
        refuse(step.forbids(instruction), Refusal::Order)?;
        refuse(!instruction_is_inside_sizes(instruction), Refusal::Size)?;
        refuse(step.instructions.len() == INSTRUCTIONS, Refusal::Full)?;
        step.instructions.push(instruction);
        Ok(())
    }

    /// A head step after a goal step or call; the same k twice in a goal.
    fn step_is_forbidden(&self, line: StepLine) -> bool {
        match line {
            Head { .. } | DeepHead { .. } => !self.steps.iter().all(is_head_step),
            Goal { k, .. } => self.this_goal().any(|step| step.is_argument(k)),
            DeepGoal { .. } | Call => false,
        }
    }

    /// The steps since the last `call`.
    fn this_goal(&self) -> impl Iterator<Item = &Step> {
        let not_called = |step: &&Step| step.line != Call;
        self.steps.iter().rev().take_while(not_called)
    }
}

impl Step {
    /// Whether an instruction is in a forbidden order here.
    fn forbids(&self, instruction: Instruction) -> bool {
        let wrong_kind = match self.line {
            Head { .. } | DeepHead { .. } => matches!(instruction, Put(..) | Set(..)),
            Goal { .. } | DeepGoal { .. } => matches!(instruction, Get(Value, ..) | Unify(..)),
            Call => true,
        };
        let takes_number_twice = takes_the_steps_number(&instruction)
            && self.instructions.iter().any(takes_the_steps_number);
        wrong_kind || takes_number_twice
    }

    fn is_argument(&self, register: u64) -> bool {
        matches!(self.line, Goal { k, .. } if k == register)
    }
}

fn refuse(condition: bool, refusal: Refusal) -> Result<(), Refusal> {
    if condition { Err(refusal) } else { Ok(()) }
}

fn is_head_step(step: &Step) -> bool {
    matches!(step.line, Head { .. } | DeepHead { .. })
}

fn is_goal_step(step: &Step) -> bool {
    matches!(step.line, Goal { .. } | DeepGoal { .. })
}

/// `put_variable`, `set_variable` and Unify: a step has at most one of them.
fn takes_the_steps_number(instruction: &Instruction) -> bool {
    matches!(
        instruction,
        Put(Variable, ..) | Set(Variable, _) | Unify(..)
    )
}

fn step_is_inside_sizes(line: StepLine) -> bool {
    match line {
        Head { k, v } | Goal { k, v } => is_register(k) && is_variable(v),
        DeepHead { v } | DeepGoal { v } => is_variable(v),
        Call => true,
    }
}

fn instruction_is_inside_sizes(instruction: Instruction) -> bool {
    match instruction {
        Get(_, place, k) | Put(_, place, k) => place_is_inside_sizes(place) && is_register(k),
        Set(_, place) | Unify(_, place) => place_is_inside_sizes(place),
    }
}

fn place_is_inside_sizes(place: Place) -> bool {
    let (Register(number) | Slot(number)) = place;
    is_register(number)
}

fn is_register(number: u64) -> bool {
    (1..=REGISTERS).contains(&number)
}

fn is_variable(number: u64) -> bool {
    number <= LAST_VARIABLE
}
