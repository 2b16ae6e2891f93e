//! The refusals, by name: rules 4.1 to 4.9 of docs/RULES.md.

/// Why a line, or a whole sheet, is refused; the value is the printed number.
#[derive(Debug, Clone, Copy, PartialEq, Eq)]
pub enum Refusal {
    Form = 1,
    Order = 2,
    Size = 3,
    Stop = 4,
    NoRegister = 5,
    NoSlot = 6,
    Full = 7,
    Unreachable = 8,
    Room = 9,
}

impl Refusal {
    /// The last refusal's number; the first is 1.
    pub const LAST: usize = Refusal::Room as usize;

    pub fn number(self) -> usize {
        self as usize
    }
}
