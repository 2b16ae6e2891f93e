//! The form of a line: what is not of this form is refused as 1.

use crate::limits::LARGEST_NUMBER;
use crate::sheet::Form::{Value, Variable};
use crate::sheet::Instruction::{self, Get, Put, Set, Unify};
use crate::sheet::Place::{self, Register, Slot};
use crate::sheet::StepLine::{self, Call, DeepGoal, DeepHead, Goal, Head};

/// A line of a right form; its numbers may still be outside their sizes.
pub enum Line {
    Step(StepLine),
    Instruction(Instruction),
}

/// Reads a line, its LF taken off.
pub fn read_line(text: &[u8]) -> Option<Line> {
    let fields: Vec<&[u8]> = text.split(|byte| *byte == b'\t').collect();
    let (word, fields) = fields.split_first()?;
    read_step(word, fields)
        .map(Line::Step)
        .or_else(|| read_instruction(word, fields).map(Line::Instruction))
}

fn read_step(word: &[u8], fields: &[&[u8]]) -> Option<StepLine> {
    let numbers: Vec<u64> = fields
        .iter()
        .map(|field| read_number(field))
        .collect::<Option<_>>()?;
    match (word, &numbers[..]) {
        (b"h", &[k, v]) => Some(Head { k, v }),
        (b"hd", &[v]) => Some(DeepHead { v }),
        (b"g", &[k, v]) => Some(Goal { k, v }),
        (b"gd", &[v]) => Some(DeepGoal { v }),
        (b"call", []) => Some(Call),
        _ => None,
    }
}

/// Unsafe and local forms act as their plain forms, and are no longer kept apart.
fn read_instruction(word: &[u8], fields: &[&[u8]]) -> Option<Instruction> {
    let (place, k) = fields.split_first()?;
    let place = read_place(place)?;
    match k {
        [k] => read_moving_instruction(word, place, read_number(k)?),
        [] => read_subterm_instruction(word, place),
        _ => None,
    }
}

fn read_moving_instruction(word: &[u8], place: Place, k: u64) -> Option<Instruction> {
    match word {
        b"get_variable" => Some(Get(Variable, place, k)),
        b"get_value" => Some(Get(Value, place, k)),
        b"put_variable" => Some(Put(Variable, place, k)),
        b"put_value" => Some(Put(Value, place, k)),
        b"put_unsafe_value" if matches!(place, Slot(_)) => Some(Put(Value, place, k)),
        _ => None,
    }
}

fn read_subterm_instruction(word: &[u8], place: Place) -> Option<Instruction> {
    match word {
        b"set_variable" => Some(Set(Variable, place)),
        b"set_value" | b"set_local_value" => Some(Set(Value, place)),
        b"unify_variable" => Some(Unify(Variable, place)),
        b"unify_value" | b"unify_local_value" => Some(Unify(Value, place)),
        _ => None,
    }
}

fn read_place(field: &[u8]) -> Option<Place> {
    match field.split_first()? {
        (b'x', number) => Some(Register(read_number(number)?)),
        (b'y', number) => Some(Slot(read_number(number)?)),
        _ => None,
    }
}

/// Decimal, with no needless leading zero, and not above the largest number.
fn read_number(field: &[u8]) -> Option<u64> {
    let needless_zero = field.len() > 1 && field[0] == b'0';
    let digits_only = field.iter().all(u8::is_ascii_digit);
    if needless_zero || !digits_only {
        return None;
    }
    let number: u64 = std::str::from_utf8(field).ok()?.parse().ok()?;
    (number <= LARGEST_NUMBER).then_some(number)
}
