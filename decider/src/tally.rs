//! Counts over many sheets.

use crate::answer::{ACCEPTED, answer};
use crate::limits::SHEET_BYTES;
use crate::refusal::REFUSALS;
use crate::sheet::{Sheet, read_sheet};
use crate::{all_assignments, closure, substitution};
use judging::refusal::Refusal;
use judging::words::Words;
use std::collections::BTreeMap;
use std::fmt::{self, Display, Formatter};

/// How often each answer was given, and each word in the sheets that were read whole.
#[derive(Default)]
pub struct Answers {
    accepted: usize,
    rejected: usize,
    /// By refusal number.
    refused: BTreeMap<usize, usize>,
    given: Words,
}

impl Answers {
    pub fn count(&mut self, sheet: &[u8], room: usize) {
        match answer(sheet, room) {
            Err((_, refusal)) => *self.refused.entry(refusal.number()).or_default() += 1,
            Ok(verdict) => {
                let count = match &verdict[..] {
                    ACCEPTED => &mut self.accepted,
                    _ => &mut self.rejected,
                };
                *count += 1;
                self.given.count(&String::from_utf8_lossy(sheet));
            }
        }
    }
}

impl Display for Answers {
    fn fmt(&self, formatter: &mut Formatter<'_>) -> fmt::Result {
        writeln!(formatter, "accepted\t{}", self.accepted)?;
        writeln!(formatter, "rejected\t{}", self.rejected)?;
        for number in REFUSALS.map(Refusal::number) {
            let count = self.refused.get(&number).unwrap_or(&0);
            writeln!(formatter, "refused\t{number}\t{count}")?;
        }
        self.given.write(formatter, "given")
    }
}

/// How often the ways to decide a sheet agreed.
#[derive(Default)]
pub struct Agreement {
    /// Sheets that all three ways decided: accepted, and rejected.
    few_names: (usize, usize),
    /// Sheets that two ways decided.
    many_names: (usize, usize),
    refused: usize,
    differ: usize,
}

impl Agreement {
    /// Decides a sheet in every way. Answers whether they agree.
    pub fn count(&mut self, sheet: &[u8]) -> bool {
        match read_sheet(sheet) {
            Ok(sheet_read) if sheet.len() <= SHEET_BYTES => self.count_verdicts(&sheet_read),
            _ => {
                self.refused += 1;
                true
            }
        }
    }

    fn count_verdicts(&mut self, sheet: &Sheet) -> bool {
        let verdict = closure::is_accepted(sheet);
        let tried = all_assignments::is_accepted(sheet);
        let agree =
            substitution::is_accepted(sheet) == verdict && tried.unwrap_or(verdict) == verdict;
        let (accepted, rejected) = match tried {
            Some(_) => &mut self.few_names,
            None => &mut self.many_names,
        };
        *(if verdict { accepted } else { rejected }) += 1;
        self.differ += usize::from(!agree);
        agree
    }

    pub fn differ(&self) -> usize {
        self.differ
    }
}

impl Display for Agreement {
    fn fmt(&self, formatter: &mut Formatter<'_>) -> fmt::Result {
        let lines = [
            ("few_names", self.few_names),
            ("many_names", self.many_names),
        ];
        for (label, (accepted, rejected)) in lines {
            writeln!(formatter, "{label}\taccepted\t{accepted}")?;
            writeln!(formatter, "{label}\trejected\t{rejected}")?;
        }
        writeln!(formatter, "refused\t{}", self.refused)?;
        writeln!(formatter, "differ\t{}", self.differ)
    }
}
