//! The printed lines of an answer.

use crate::instructions::{CodeDeque, Instruction};
use crate::limits::{REGISTERS, SLOTS};
use crate::parser::ast::{RegType, VarReg};
use judging::refusal::Refusal;
use std::cell::Cell;
use std::fmt::{self, Display, Formatter};

/// The original's sign that a variable has no register yet.
const NO_PLACE: RegType = RegType::Temp(0);

/// What one event prints: its instructions, then its place. The original writes into both.
pub(crate) struct Printed {
    pub(crate) code: CodeDeque,
    pub(crate) cell: Cell<VarReg>,
}

impl Printed {
    pub(crate) fn nothing() -> Self {
        Printed {
            code: CodeDeque::new(),
            cell: Cell::new(VarReg::Norm(NO_PLACE)),
        }
    }

    pub(crate) fn clear(&mut self) {
        self.code.clear();
        self.set_place(NO_PLACE);
    }

    pub(crate) fn set_place(&self, place: RegType) {
        self.cell.set(VarReg::Norm(place));
    }

    fn place(&self) -> Option<RegType> {
        Some(self.cell.get().norm()).filter(|place| *place != NO_PLACE)
    }

    /// The original's searches have no upper end; a place past the limit is a refusal. A
    /// slot is found before any register that the same event moves an argument to.
    pub(crate) fn test_places(&self) -> Result<(), Refusal> {
        let mut registers = self.code.iter().map(Instruction::place).chain(self.place());
        match self.place() {
            Some(RegType::Perm(slot)) if slot > SLOTS => Err(Refusal::NoSlot),
            _ if registers.any(is_past_registers) => Err(Refusal::NoRegister),
            _ => Ok(()),
        }
    }
}

fn is_past_registers(place: RegType) -> bool {
    matches!(place, RegType::Temp(register) if register > REGISTERS)
}

impl Display for Printed {
    fn fmt(&self, formatter: &mut Formatter<'_>) -> fmt::Result {
        for instruction in &self.code {
            writeln!(formatter, "{instruction}")?;
        }
        match self.place() {
            Some(place) => writeln!(formatter, "at\t{place}"),
            None => Ok(()),
        }
    }
}

impl Display for RegType {
    fn fmt(&self, formatter: &mut Formatter<'_>) -> fmt::Result {
        match self {
            RegType::Temp(register) => write!(formatter, "x{register}"),
            RegType::Perm(slot) => write!(formatter, "y{slot}"),
        }
    }
}

impl Display for Instruction {
    fn fmt(&self, formatter: &mut Formatter<'_>) -> fmt::Result {
        let (word, place, argument) = self.parts();
        write!(formatter, "{word}\t{place}")?;
        match argument {
            Some(argument) => write!(formatter, "\t{argument}"),
            None => Ok(()),
        }
    }
}

impl Instruction {
    fn place(&self) -> RegType {
        self.parts().1
    }

    /// The instruction's word, its place and, if it has one, its argument's number.
    fn parts(&self) -> (&'static str, RegType, Option<usize>) {
        match *self {
            Instruction::GetVariable(place, argument) => ("get_variable", place, Some(argument)),
            Instruction::GetValue(place, argument) => ("get_value", place, Some(argument)),
            Instruction::PutVariable(place, argument) => ("put_variable", place, Some(argument)),
            Instruction::PutValue(place, argument) => ("put_value", place, Some(argument)),
            Instruction::PutUnsafeValue(slot, argument) => {
                ("put_unsafe_value", RegType::Perm(slot), Some(argument))
            }
            Instruction::SetVariable(place) => ("set_variable", place, None),
            Instruction::SetValue(place) => ("set_value", place, None),
            Instruction::SetLocalValue(place) => ("set_local_value", place, None),
            Instruction::UnifyVariable(place) => ("unify_variable", place, None),
            Instruction::UnifyValue(place) => ("unify_value", place, None),
            Instruction::UnifyLocalValue(place) => ("unify_local_value", place, None),
            ref other => unreachable!("no event makes {other:?}"),
        }
    }
}
