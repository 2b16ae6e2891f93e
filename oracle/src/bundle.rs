//! A whole bundle: lines `clause` begin its clauses, and each is judged as an event sheet of its lines alone.

use crate::judge::{Refused, judge};
use crate::limits::SHEET_BYTES;
use judging::refusal::Refusal;

/// The word of the lines that begin clauses.
const CLAUSE: &[u8] = b"clause";

/// A clause has no room of its own: its answer may have any length.
const ANY_LENGTH: usize = usize::MAX;

/// Judges a bundle that has `room` bytes for its whole answer. A clause that is refused prints its refusal, and the next
/// goes on.
pub fn judge_bundle(bundle: &[u8], room: usize) -> Result<String, Refused> {
    if bundle.len() > SHEET_BYTES {
        return Err(Refused::whole(Refusal::Full));
    }
    if !bundle.is_empty() && !bundle.ends_with(b"\n") {
        return Err(Refused::whole(Refusal::Form));
    }
    let lines: Vec<&[u8]> = bundle.split_inclusive(|byte| *byte == b'\n').collect();
    if lines.first().is_some_and(|line| !begins_clause(line)) {
        return Err(Refused::whole(Refusal::Order));
    }
    if lines.iter().any(|line| has_more_fields(line)) {
        return Err(Refused::whole(Refusal::Form));
    }
    let answer = joined_answers(&lines);
    if answer.len() > room {
        return Err(Refused::whole(Refusal::Room));
    }
    Ok(answer)
}

/// Whether the line's word, which is its whole first field, is `clause`.
fn begins_clause(line: &[u8]) -> bool {
    line.split(|byte| matches!(byte, b'\t' | b'\n')).next() == Some(CLAUSE)
}

/// Whether a field stands behind the word `clause`, be it an empty one.
fn has_more_fields(line: &[u8]) -> bool {
    begins_clause(line) && line.contains(&b'\t')
}

/// The answers to the clauses of lines of which the first begins one.
fn joined_answers(lines: &[&[u8]]) -> String {
    let clauses = lines.split(|line| begins_clause(line)).skip(1);
    let answers = clauses.map(|clause| answer_alone(&clause.concat()));
    answers.collect()
}

/// What a clause prints, whatever stands before or behind it.
pub fn answer_alone(clause: &[u8]) -> String {
    match judge(clause, ANY_LENGTH) {
        Ok(accepted) => accepted.answer().to_string(),
        Err(refused) => refused.answer(),
    }
}
