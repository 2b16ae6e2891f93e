//! An event sheet answered by the original with nothing around it: no sizes, no refusals, no stop caught.
//!
//! The judge tests after each event what the original did. Here only what any driver does is done: lines are read,
//! events carried out, answers printed. So a sheet that the judge accepts gets the same answer, in less time.

use crate::allocator::Allocator;
use crate::clause::Clause;
use crate::print::Printed;
use crate::sheet::{Line, read_line};
use std::fmt::Write;

/// Puts the answer to a sheet that the judge accepts behind `answer`.
pub fn answer(sheet: &[u8], answer: &mut String) {
    let mut clause = Clause::new();
    let mut printed = Printed::nothing();
    for line in sheet.split_inclusive(|byte| *byte == b'\n') {
        match line.strip_suffix(b"\n").and_then(read_line) {
            Some(Line::Record(record)) => clause.add(record),
            Some(Line::Event(event)) => {
                clause.step(&event, &mut printed);
                write!(answer, "{printed}").expect("a string takes every text");
                printed.clear();
            }
            None => panic!("an accepted sheet has no such line"),
        }
    }
    let registers = clause.allocator().max_reg_allocated();
    let slots = clause.allocator().num_perm_vars();
    writeln!(answer, "end\t{registers}\t{slots}").expect("a string takes every text");
}
