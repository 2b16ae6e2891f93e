//! Writes event sheets, or bundles of clauses, the same ones for the same seed, as frames on standard output.

mod bundles;
mod clauses;
mod damage;
mod driven;
mod fields;
mod large;
mod limits;
mod text;
mod tiny;
mod wild;

use judging::generator::{self, Kinds, WriteSheet};
use std::process::ExitCode;

const USAGE: &str = "generate --seed S --count N [--clauses | --driven | --bundles]";

/// The kinds of sheet, each as often as its weight says.
const KINDS: [(usize, WriteSheet); 7] = [
    (340, |random| clauses::clause(random).into_bytes()),
    (280, |random| wild::wild(random).into_bytes()),
    (220, |random| limits::at_a_limit(random).into_bytes()),
    (110, damage::damaged),
    (20, |random| tiny::tiny(random).into_bytes()),
    (24, |random| large::answer(random).into_bytes()),
    (6, |random| large::sheet(random).into_bytes()),
];

/// Every kind, or clauses alone: those of the first kind, or clauses with tests; or bundles.
fn named_kinds(words: &[&str]) -> Option<Kinds> {
    match words {
        [] => Some(KINDS.to_vec()),
        ["--clauses"] => Some(KINDS[..1].to_vec()),
        ["--driven"] => Some(vec![(1, |random| driven::driven(random).into_bytes())]),
        ["--bundles"] => Some(bundles::BUNDLES.to_vec()),
        _ => None,
    }
}

fn main() -> ExitCode {
    generator::run(USAGE, named_kinds)
}
