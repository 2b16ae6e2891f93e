//! A sheet while it is written: steps with their instructions, right or wrong.

use std::fmt::{self, Display, Formatter};

/// A register (`x`) or a slot (`y`); any number.
#[derive(Debug, Clone, Copy, PartialEq, Eq, PartialOrd, Ord)]
pub struct Place {
    pub letter: char,
    pub number: usize,
}

pub fn register(number: usize) -> Place {
    Place {
        letter: 'x',
        number,
    }
}

pub fn slot(number: usize) -> Place {
    Place {
        letter: 'y',
        number,
    }
}

#[derive(Clone, Copy)]
pub struct Instruction {
    pub word: &'static str,
    pub place: Place,
    pub k: Option<usize>,
}

/// An instruction that moves or compares: Get or Put.
pub fn moving(word: &'static str, place: Place, k: usize) -> Instruction {
    Instruction {
        word,
        place,
        k: Some(k),
    }
}

/// An instruction of a subterm: Set or Unify.
pub fn subterm(word: &'static str, place: Place) -> Instruction {
    Instruction {
        word,
        place,
        k: None,
    }
}

#[derive(Clone)]
pub struct Step {
    pub word: &'static str,
    pub k: Option<usize>,
    pub v: Option<usize>,
    pub instructions: Vec<Instruction>,
}

pub fn shallow(word: &'static str, k: usize, v: usize) -> Step {
    Step {
        word,
        k: Some(k),
        v: Some(v),
        instructions: Vec::new(),
    }
}

pub fn deep(word: &'static str, v: usize) -> Step {
    Step {
        word,
        k: None,
        v: Some(v),
        instructions: Vec::new(),
    }
}

pub fn call() -> Step {
    Step {
        word: "call",
        k: None,
        v: None,
        instructions: Vec::new(),
    }
}

impl Step {
    /// Whether it is a head step; a goal step or `call` otherwise.
    pub fn is_head(&self) -> bool {
        self.word.starts_with('h')
    }

    pub fn with(mut self, instruction: Instruction) -> Self {
        self.instructions.push(instruction);
        self
    }
}

impl Display for Place {
    fn fmt(&self, formatter: &mut Formatter<'_>) -> fmt::Result {
        write!(formatter, "{}{}", self.letter, self.number)
    }
}

impl Display for Instruction {
    fn fmt(&self, formatter: &mut Formatter<'_>) -> fmt::Result {
        write!(formatter, "{}\t{}", self.word, self.place)?;
        write_number(formatter, self.k)?;
        formatter.write_str("\n")
    }
}

impl Display for Step {
    fn fmt(&self, formatter: &mut Formatter<'_>) -> fmt::Result {
        formatter.write_str(self.word)?;
        write_number(formatter, self.k)?;
        write_number(formatter, self.v)?;
        formatter.write_str("\n")?;
        let mut instructions = self.instructions.iter();
        instructions.try_for_each(|instruction| write!(formatter, "{instruction}"))
    }
}

fn write_number(formatter: &mut Formatter<'_>, number: Option<usize>) -> fmt::Result {
    match number {
        Some(number) => write!(formatter, "\t{number}"),
        None => Ok(()),
    }
}

pub fn text(steps: &[Step]) -> Vec<u8> {
    let text: String = steps.iter().map(Step::to_string).collect();
    text.into_bytes()
}
