//! The original Rust as judge of event sheets, and of bundles of clauses.
//!
//! Three files of the original are compiled unchanged and decide everything they speak of.
//! The rest of this crate reads sheets, tests sizes and prints.

mod clause;
mod original;
mod print;
mod sheet;
mod shims;
mod sizes;
mod state;
mod stop;

pub mod bundle;
pub mod judge;
pub mod limits;
pub mod plain;
pub mod tally;

// The original's files look for these modules at the root of the crate.
use original::{allocator, debray_allocator, targets, variable_records};
use shims::{atom_table, codegen, forms, instructions, iterators, machine, parser, types};
