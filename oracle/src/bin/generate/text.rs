//! The text of a sheet while it is written.

use std::fmt::Display;

#[derive(Default)]
pub struct Sheet {
    bytes: Vec<u8>,
}

impl Sheet {
    /// Adds a line whose fields are parted by spaces here and by tabs in the sheet.
    pub fn line(&mut self, fields: impl Display) {
        let line = fields.to_string().replace(' ', "\t");
        self.bytes.extend(line.bytes());
        self.bytes.push(b'\n');
    }

    /// Adds the same line several times.
    pub fn lines(&mut self, count: usize, fields: impl Display) {
        for _ in 0..count {
            self.line(&fields);
        }
    }

    /// Adds a line that ends in a list of fields, perhaps an empty one.
    pub fn line_with_list<Item: Display>(
        &mut self,
        first: impl Display,
        list: impl IntoIterator<Item = Item>,
    ) {
        let mut line = first.to_string();
        for field in list {
            line.push(' ');
            line += &field.to_string();
        }
        self.line(line);
    }

    pub fn append(&mut self, following: Sheet) {
        self.bytes.extend(following.bytes);
    }

    pub fn len(&self) -> usize {
        self.bytes.len()
    }

    pub fn into_bytes(self) -> Vec<u8> {
        self.bytes
    }
}

/// A use list: its pairs, or the sign that there are none.
pub fn uses(pairs: &[String]) -> String {
    match pairs {
        [] => "-".to_string(),
        _ => pairs.join(","),
    }
}
