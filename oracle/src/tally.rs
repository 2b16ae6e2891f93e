//! Counts over many sheets: what was accepted, what was refused, which words occurred.

use crate::judge::Refused;
use judging::refusal::Refusal;
use judging::words::Words;
use std::fmt::{self, Display, Formatter};

#[derive(Default)]
pub struct Tally {
    accepted: u64,
    /// By refusal number; the first place stays empty.
    refused: [u64; Refusal::LAST + 1],
    /// First words of the lines of accepted sheets.
    given: Words,
    /// First words of the lines of their answers.
    printed: Words,
}

impl Tally {
    pub fn count(&mut self, sheet: &[u8], verdict: Result<String, Refused>) {
        match verdict {
            Ok(answer) => {
                self.accepted += 1;
                self.given.count(&String::from_utf8_lossy(sheet));
                self.printed.count(&answer);
            }
            Err(refused) => self.refused[refused.refusal.number()] += 1,
        }
    }
}

impl Display for Tally {
    fn fmt(&self, formatter: &mut Formatter<'_>) -> fmt::Result {
        writeln!(formatter, "accepted\t{}", self.accepted)?;
        for (number, count) in self.refused.iter().enumerate().skip(1) {
            writeln!(formatter, "refused\t{number}\t{count}")?;
        }
        self.given.write(formatter, "given")?;
        self.printed.write(formatter, "printed")
    }
}
