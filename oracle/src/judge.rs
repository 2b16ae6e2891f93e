//! A whole event sheet, judged line by line.

use crate::allocator::Allocator;
use crate::clause::Clause;
use crate::limits::{ARGUMENT_COUNTER, SHEET_BYTES, VARIABLES};
use crate::sheet::{Event, Line, Record, read_line};
use judging::refusal::Refusal;
use std::fmt::{Arguments, Write};

/// What a sheet earns when no line is refused.
pub struct Accepted {
    answer: String,
    clause: Clause,
}

/// The first refusal; line 0 stands for the whole sheet.
#[derive(Debug, Clone, Copy, PartialEq, Eq)]
pub struct Refused {
    pub line: usize,
    pub refusal: Refusal,
}

/// Judges a sheet that has `room` bytes for its answer.
pub fn judge(sheet: &[u8], room: usize) -> Result<Accepted, Refused> {
    if sheet.len() > SHEET_BYTES {
        return Err(Refused::whole(Refusal::Full));
    }
    let mut judging = Judging::new();
    let lines = sheet.split_inclusive(|byte| *byte == b'\n');
    for (line, number) in lines.zip(1..) {
        judging.take_line(line).map_err(|refusal| Refused {
            line: number,
            refusal,
        })?;
    }
    let accepted = judging.finish();
    if accepted.answer.len() > room {
        return Err(Refused::whole(Refusal::Room));
    }
    Ok(accepted)
}

impl Accepted {
    pub fn answer(&self) -> &str {
        &self.answer
    }

    /// The clause's final state, in the form that README.md gives.
    pub fn state(&self) -> String {
        self.clause.to_string()
    }
}

impl Refused {
    pub(crate) fn whole(refusal: Refusal) -> Self {
        Refused { line: 0, refusal }
    }

    pub fn answer(&self) -> String {
        format!("no\t{}\t{}\n", self.line, self.refusal.number())
    }
}

/// A sheet under way.
struct Judging {
    clause: Clause,
    answer: String,
    event_seen: bool,
}

impl Judging {
    fn new() -> Self {
        Judging {
            clause: Clause::new(),
            answer: String::new(),
            event_seen: false,
        }
    }

    fn take_line(&mut self, line: &[u8]) -> Result<(), Refusal> {
        let text = line.strip_suffix(b"\n").ok_or(Refusal::Form)?;
        match read_line(text).ok_or(Refusal::Form)? {
            Line::Record(record) => self.take_record(record),
            Line::Event(event) => self.take_event(&event),
        }
    }

    fn take_record(&mut self, record: Record) -> Result<(), Refusal> {
        if self.event_seen {
            return Err(Refusal::Order);
        }
        record.test_sizes()?;
        if self.clause.variables() == VARIABLES {
            return Err(Refusal::Full);
        }
        self.clause.add(record);
        Ok(())
    }

    fn take_event(&mut self, event: &Event) -> Result<(), Refusal> {
        self.event_seen = true;
        event.test_sizes(self.clause.variables())?;
        let arguments_spent = self.clause.allocator().argument_counter() == ARGUMENT_COUNTER;
        if event.takes_argument() && arguments_spent {
            return Err(Refusal::Full);
        }
        let printed = self.clause.carry_out(event)?;
        self.print(format_args!("{printed}"));
        Ok(())
    }

    fn finish(mut self) -> Accepted {
        let registers = self.clause.allocator().max_reg_allocated();
        let slots = self.clause.allocator().num_perm_vars();
        self.print(format_args!("end\t{registers}\t{slots}\n"));
        Accepted {
            answer: self.answer,
            clause: self.clause,
        }
    }

    fn print(&mut self, text: Arguments<'_>) {
        let printing = self.answer.write_fmt(text);
        printing.expect("a string takes every text");
    }
}
