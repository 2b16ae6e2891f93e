//! The sizes, by name: section 3 of docs/RULES.md.

/// The bytes of a sheet or a bundle, and those lent for its answer unless an option says otherwise.
pub const SHEET_BYTES: usize = 65_536;
pub const VARIABLES: usize = 64;
/// Entries of one variable's use list, repeats counted.
pub const USES: usize = 16;
/// Registers run from 1 to this number; so do slots and the registers of `give`.
pub const REGISTERS: usize = 63;
pub const SLOTS: usize = 63;
/// A cell is a register, or 0 for none.
pub const CELLS: usize = REGISTERS;
pub const ARGUMENTS: usize = 63;
/// Where the argument counter ends: the next argument has no number.
pub const ARGUMENT_COUNTER: usize = 64;
pub const CHUNKS: usize = 255;
/// Occurrences, running counts, arms and arm indices.
pub const COUNTS: usize = 65_535;
pub const OPEN_BRANCHES: usize = 16;
/// Variables named by one `close`, repeats counted.
pub const CLOSE_VARIABLES: usize = 64;
pub const FREED_REGISTERS: usize = 64;
pub const FREED_SLOTS: usize = 128;
