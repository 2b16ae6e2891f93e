//! How often lines begin with which word.

use std::collections::BTreeMap;
use std::fmt::{self, Formatter};

#[derive(Default)]
pub struct Words {
    counts: BTreeMap<String, u64>,
}

impl Words {
    /// Counts the first words of a text's lines.
    pub fn count(&mut self, text: &str) {
        for line in text.split_terminator('\n') {
            let word = line.split('\t').next().unwrap_or_default();
            match self.counts.get_mut(word) {
                Some(count) => *count += 1,
                None => {
                    self.counts.insert(word.to_string(), 1);
                }
            }
        }
    }

    /// Writes a table's lines: the label, a word and its count.
    pub fn write(&self, formatter: &mut Formatter<'_>, label: &str) -> fmt::Result {
        for (word, count) in &self.counts {
            writeln!(formatter, "{label}\t{word}\t{count}")?;
        }
        Ok(())
    }
}
