//! Bundles: clauses of every kind of sheet, few or many, up to the limits of a bundle and of its answer; and damaged ones.

use crate::damage::DAMAGES;
use crate::{KINDS, large, tiny};
use judging::damage::Damage::{self, Other};
use judging::damage::{damage, is_line_end, remove_last_byte};
use judging::generator::WriteSheet;
use judging::random::Random;
use oracle::bundle::answer_alone;
use oracle::limits::SHEET_BYTES;

/// The kinds of bundle, each as often as its weight says.
pub const BUNDLES: [(usize, WriteSheet); 9] = [
    (10, |_| Vec::new()),
    (586, few),
    (80, many),
    (290, damaged),
    (8, at_its_length),
    (12, at_its_answer),
    (6, with_a_long_answer),
    (6, much_refused),
    (2, empty_clauses),
];

/// The line that begins a clause.
const BEGIN: &[u8] = b"clause\n";

const FEW: usize = 6;
const MANY: usize = 200;

/// No clause is longer, but for those that are about limits.
const SHORT: usize = 2_000;

/// Bytes that a clause of `large` can have, and print, exactly.
const LEAST: usize = 100;

/// A short sheet of any kind.
fn short_clause(random: &mut Random) -> Vec<u8> {
    loop {
        let write_sheet = random.weighted(&KINDS);
        let clause = write_sheet(random);
        if clause.len() <= SHORT {
            return clause;
        }
    }
}

fn short_clauses(random: &mut Random) -> Vec<Vec<u8>> {
    let count = random.between(1, FEW);
    (0..count).map(|_| short_clause(random)).collect()
}

/// A clause that prints so many bytes before it is refused.
fn refused_behind(random: &mut Random, printed: usize) -> Vec<u8> {
    let mut clause = large::answer_of(random, printed);
    clause.line("sets 1");
    clause.into_bytes()
}

fn add(bundle: &mut Vec<u8>, clause: &[u8]) {
    bundle.extend(BEGIN);
    bundle.extend(clause);
}

/// Adds a clause before, between or behind the others.
fn insert(random: &mut Random, clauses: &mut Vec<Vec<u8>>, clause: Vec<u8>) {
    let place = random.between(0, clauses.len());
    clauses.insert(place, clause);
}

fn joined(clauses: &[Vec<u8>]) -> Vec<u8> {
    let mut bundle = Vec::new();
    for clause in clauses {
        add(&mut bundle, clause);
    }
    bundle
}

fn few(random: &mut Random) -> Vec<u8> {
    joined(&short_clauses(random))
}

/// Clauses of one line or none.
fn many(random: &mut Random) -> Vec<u8> {
    let mut bundle = Vec::new();
    for _ in 0..random.between(FEW, MANY) {
        add(&mut bundle, &tiny::tiny(random).into_bytes());
    }
    bundle
}

/// A bundle about as long as it may be: short clauses, and a last one that fills it.
fn at_its_length(random: &mut Random) -> Vec<u8> {
    let length = random.between(SHEET_BYTES - 3, SHEET_BYTES + 3);
    let filled = random.between(0, length - SHORT - 2 * BEGIN.len() - LEAST);
    let mut bundle = Vec::new();
    while bundle.len() < filled {
        add(&mut bundle, &short_clause(random));
    }
    let rest = length - bundle.len() - BEGIN.len();
    add(&mut bundle, &large::sheet_of(random, rest).into_bytes());
    bundle
}

/// A bundle whose answer is about as long as the bytes lent for it: two clauses print what the others leave.
fn at_its_answer(random: &mut Random) -> Vec<u8> {
    let length = random.between(SHEET_BYTES - 3, SHEET_BYTES + 3);
    let mut clauses = short_clauses(random);
    if random.one_in(2) {
        let printed = random.between(LEAST, SHEET_BYTES / 4);
        clauses.push(refused_behind(random, printed));
    }
    let printed = clauses.iter().map(|clause| answer_alone(clause).len());
    let rest = length - printed.sum::<usize>();
    let part = random.between(LEAST, rest - LEAST);
    for printed in [part, rest - part] {
        let clause = large::answer_of(random, printed).into_bytes();
        insert(random, &mut clauses, clause);
    }
    joined(&clauses)
}

/// A clause that by itself prints about as much as the whole bundle may, and others.
fn with_a_long_answer(random: &mut Random) -> Vec<u8> {
    let mut clauses = short_clauses(random);
    let clause = large::answer(random).into_bytes();
    insert(random, &mut clauses, clause);
    joined(&clauses)
}

/// A clause that would print as much, but is refused at its end: it prints one line.
fn much_refused(random: &mut Random) -> Vec<u8> {
    let printed = random.between(SHEET_BYTES - LEAST, SHEET_BYTES + SHEET_BYTES / 8);
    let mut clauses = short_clauses(random);
    let clause = refused_behind(random, printed);
    insert(random, &mut clauses, clause);
    joined(&clauses)
}

/// As many empty clauses as their answers have room for, or about as many.
fn empty_clauses(random: &mut Random) -> Vec<u8> {
    let fitting = SHEET_BYTES / "end 1 0\n".len();
    let count = random.between(fitting - 1, fitting + 1);
    joined(&vec![Vec::new(); count])
}

/// Bundles with a fault or several.
fn damaged(random: &mut Random) -> Vec<u8> {
    let mut bundle = match random.below(60) {
        0 => at_its_length(random),
        1 => at_its_answer(random),
        _ => few(random),
    };
    for _ in 0..random.between(1, 2) {
        damage(random, &mut bundle, &BUNDLE_DAMAGES);
    }
    bundle
}

const BUNDLE_DAMAGES: [(usize, Damage); 6] = [
    (4, Other(add_fields)),
    (4, Other(change_word)),
    (2, Other(insert_stray_line)),
    (2, Other(remove_last_byte)),
    (2, Other(insert_clause_line)),
    (2, Other(spoil)),
];

const MORE_FIELDS: [&[u8]; 4] = [
    b"clause\t\n",
    b"clause\t1\n",
    b"clause\t\t\n",
    b"clause\tclause\n",
];

/// Lines whose word is not `clause`, and no line at all.
const OTHER_WORDS: [&[u8]; 10] = [
    b"clauses\n",
    b"Clause\n",
    b"clause \n",
    b" clause\n",
    b"clause\r\n",
    b"clause\0\n",
    b"claus\n",
    b"\tclause\n",
    b"\n",
    b"",
];

fn add_fields(random: &mut Random, bundle: &mut Vec<u8>) {
    put_line(random, bundle, &MORE_FIELDS);
}

fn change_word(random: &mut Random, bundle: &mut Vec<u8>) {
    put_line(random, bundle, &OTHER_WORDS);
}

/// Puts one of the lines where a line `clause` stands.
fn put_line(random: &mut Random, bundle: &mut Vec<u8>, others: &[&[u8]]) {
    let mut lines: Vec<&[u8]> = bundle.split_inclusive(is_line_end).collect();
    let places: Vec<usize> = (0..lines.len()).filter(|at| lines[*at] == BEGIN).collect();
    if let Some(place) = random.pick_any(&places) {
        lines[place] = random.pick(others);
        *bundle = lines.concat();
    }
}

/// A line before the first clause.
fn insert_stray_line(random: &mut Random, bundle: &mut Vec<u8>) {
    let line = match random.below(2) {
        0 => b"sets\n",
        _ => random.pick(&OTHER_WORDS),
    };
    bundle.splice(0..0, line.iter().copied());
}

/// Damage as to any sheet.
fn spoil(random: &mut Random, bundle: &mut Vec<u8>) {
    damage(random, bundle, &DAMAGES);
}

/// A clause begins at any line.
fn insert_clause_line(random: &mut Random, bundle: &mut Vec<u8>) {
    let mut lines: Vec<&[u8]> = bundle.split_inclusive(is_line_end).collect();
    let place = random.between(0, lines.len());
    lines.insert(place, BEGIN);
    *bundle = lines.concat();
}
