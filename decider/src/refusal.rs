//! The refusals that a check sheet can earn.

use judging::refusal::Refusal;

/// By rising numbers.
pub const REFUSALS: [Refusal; 5] = [
    Refusal::Form,
    Refusal::Order,
    Refusal::Size,
    Refusal::Full,
    Refusal::Room,
];

/// A refused line and its refusal; line 0 stands for the whole sheet.
pub type Refused = (usize, Refusal);
