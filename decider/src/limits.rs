//! The sizes that concern check sheets, by name: rules 2.3, 3.1, 3.15, 3.16 of docs/RULES.md.

/// A sheet's bytes, and the bytes lent for its answer unless an option says otherwise.
pub const SHEET_BYTES: usize = 65_536;
/// The largest number that has a right form.
pub const LARGEST_NUMBER: u64 = 4_294_967_295;
/// Registers and slots run from 1 to this number.
pub const REGISTERS: u64 = 63;
/// Variables run from 0 to this number.
pub const LAST_VARIABLE: u64 = 63;
/// Step lines of a sheet, `call` counted.
pub const STEPS: usize = 256;
/// Instructions of a step.
pub const INSTRUCTIONS: usize = 4;
