//! What the programs of the two judges share, and nothing that decides.
//!
//! Here is how sheets are framed, how case files are written, how bytes are damaged, where random numbers come from, how
//! programs take their options, and what the refusal numbers are called. What a sheet means, when it is refused and which
//! sheets are made up stays with each judge, and neither judge uses the other.

pub mod damage;
pub mod frames;
pub mod generator;
pub mod notation;
pub mod program;
pub mod random;
pub mod refusal;
pub mod words;
