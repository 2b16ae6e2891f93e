//! The answer to a whole check sheet.

use crate::limits::SHEET_BYTES;
use crate::refusal::Refused;
use crate::sheet::{Sheet, read_sheet};
use crate::{all_assignments, closure};
use judging::refusal::Refusal;

pub const ACCEPTED: &[u8] = b"accepted\n";
pub const REJECTED: &[u8] = b"rejected\n";

/// Answers a sheet that has `room` bytes for its answer.
pub fn answer(sheet: &[u8], room: usize) -> Result<Vec<u8>, Refused> {
    if sheet.len() > SHEET_BYTES {
        return Err((0, Refusal::Full));
    }
    let sheet = read_sheet(sheet)?;
    let verdict = if is_accepted(&sheet) {
        ACCEPTED
    } else {
        REJECTED
    };
    if verdict.len() > room {
        return Err((0, Refusal::Room));
    }
    Ok(verdict.to_vec())
}

/// Few names are tried out; many are closed.
fn is_accepted(sheet: &Sheet) -> bool {
    all_assignments::is_accepted(sheet).unwrap_or_else(|| closure::is_accepted(sheet))
}

/// What is printed: the answer, or `no`, line and number.
pub fn reply(sheet: &[u8], room: usize) -> Vec<u8> {
    match answer(sheet, room) {
        Ok(answer) => answer,
        Err((line, refusal)) => format!("no\t{line}\t{}\n", refusal.number()).into_bytes(),
    }
}
