//! A second decider of check sheets, written from the rules alone: sections 19 to 21 of
//! docs/RULES.md.
//!
//! A sheet is decided in three ways that share nothing but its reading and its names:
//! - `all_assignments` runs the machine on every choice of numbers that makes a difference;
//! - `substitution` runs it on the two choices that are freest under each side's demands;
//! - `closure` looks back from every demand to names, and closes the equalities as matrices.

mod lines;
mod machine;
mod names;
mod outcome;
mod wanted;

pub mod all_assignments;
pub mod answer;
pub mod closure;
pub mod limits;
pub mod refusal;
pub mod sheet;
pub mod substitution;
pub mod tally;
