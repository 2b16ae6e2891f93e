//! Writes check sheets, the same ones for the same seed, as frames on standard output.

mod clauses;
mod damage;
mod edits;
mod equalities;
mod kept;
mod limits;
mod saves;
mod shuffle;
mod small;
mod text;

use judging::generator::{self, Kinds, WriteSheet};
use judging::random::Random;
use std::process::ExitCode;
use text::text;

const USAGE: &str = "generate --seed S --count N [--kind KIND]";

/// Every kind as often as its weight says; the small kinds only; one kind.
const MIXED: &str = "mixed";
const FEW_NAMES: &str = "few_names";

struct Kind {
    name: &'static str,
    /// How often it comes in the mix, and among the small kinds.
    mixed: usize,
    few_names: usize,
    write: WriteSheet,
}

const KINDS: [Kind; 11] = [
    Kind {
        name: "clauses",
        mixed: 200,
        few_names: 0,
        write: |random| text(&clauses::clause(random)),
    },
    Kind {
        name: "small_clauses",
        mixed: 40,
        few_names: 3,
        write: |random| text(&clauses::small_clause(random)),
    },
    Kind {
        name: "edited",
        mixed: 330,
        few_names: 0,
        write: edited,
    },
    Kind {
        name: "small_edited",
        mixed: 60,
        few_names: 4,
        write: small_edited,
    },
    Kind {
        name: "equalities",
        mixed: 80,
        few_names: 0,
        write: |random| text(&equalities::equalities(random, 40)),
    },
    Kind {
        name: "small_equalities",
        mixed: 40,
        few_names: 4,
        write: |random| text(&equalities::equalities(random, 5)),
    },
    Kind {
        name: "small",
        mixed: 60,
        few_names: 4,
        write: |random| text(&small::small(random)),
    },
    Kind {
        name: "kept",
        mixed: 40,
        few_names: 3,
        write: |random| text(&kept::kept(random)),
    },
    Kind {
        name: "limits",
        mixed: 110,
        few_names: 0,
        write: limits::at_a_limit,
    },
    Kind {
        name: "damaged",
        mixed: 75,
        few_names: 0,
        write: damage::damaged,
    },
    Kind {
        name: "long",
        mixed: 5,
        few_names: 0,
        write: limits::long,
    },
];

fn edited(random: &mut Random) -> Vec<u8> {
    let steps = clauses::clause(random);
    text(&edits::edit(random, steps))
}

fn small_edited(random: &mut Random) -> Vec<u8> {
    let steps = clauses::small_clause(random);
    text(&edits::edit(random, steps))
}

fn named_kinds(words: &[&str]) -> Option<Kinds> {
    let name = match words {
        [] => MIXED,
        ["--kind", name] => name,
        _ => return None,
    };
    let weight = |kind: &Kind| match name {
        MIXED => kind.mixed,
        FEW_NAMES => kind.few_names,
        name => usize::from(name == kind.name),
    };
    let weighted = KINDS.iter().map(|kind| (weight(kind), kind.write));
    let kinds: Kinds = weighted.filter(|(weight, _)| *weight > 0).collect();
    (!kinds.is_empty()).then_some(kinds)
}

fn main() -> ExitCode {
    generator::run(USAGE, named_kinds)
}
