//! Sheets, and answers, about as long as they may be.

use crate::text::Sheet;
use judging::random::Random;
use oracle::limits::SHEET_BYTES;

/// Lines on the variables that `answer` binds, and how many bytes each prints.
const PRINTING: [(&str, usize); 4] = [
    ("var f d h 0", 21),
    ("var f d h 1", 23),
    ("var q d l1 0", 19),
    ("var q d m2 1", 21),
];

/// No line of these sheets, and no event's answer, is longer.
const LONGEST_PART: usize = 23;

/// So many bytes and more can be filled exactly, whatever the remainder.
const PADDING: usize = 60;

/// A sheet whose answer is about as long as the bytes lent for it, often a little longer.
pub fn answer(random: &mut Random) -> Sheet {
    let length = match random.below(4) {
        0 => random.between(SHEET_BYTES - 3, SHEET_BYTES + 3),
        1 => random.between(SHEET_BYTES, SHEET_BYTES + 9_000),
        _ => random.between(SHEET_BYTES + 1, SHEET_BYTES + 99),
    };
    answer_of(random, length)
}

/// A sheet whose answer has exactly so many bytes.
pub fn answer_of(random: &mut Random, length: usize) -> Sheet {
    let mut sheet = Sheet::default();
    let mut rest = length - bind_two_variables(&mut sheet);
    while rest >= PADDING + LONGEST_PART {
        let (line, printed) = random.pick(&PRINTING);
        sheet.line(line);
        rest -= printed;
    }
    pad_answer(&mut sheet, rest);
    sheet
}

/// Binds variable 0 to `x1` and variable 1 to `x10`. Answers how many bytes that prints,
/// the sheet's `end` line counted.
fn bind_two_variables(sheet: &mut Sheet) -> usize {
    sheet.lines(2, "temp h 0 -");
    sheet.line("cut 0 0");
    sheet.line("args 9");
    sheet.line("cut 1 0");
    "at x1\n".len() + "at x10\n".len() + "end 11 0\n".len()
}

/// Prints exactly so many bytes: the `cut` of a bound variable prints 6 or 7 of them.
fn pad_answer(sheet: &mut Sheet, bytes: usize) {
    let sevens = bytes % 6;
    sheet.lines((bytes - 7 * sevens) / 6, "cut 0 0");
    sheet.lines(sevens, "cut 1 0");
}

/// Lines that print nothing.
const SILENT: [&str; 6] = [
    "sets",
    "args 7",
    "tail 1",
    "contents",
    "clearfree",
    "open 1 1 1",
];

/// A sheet about as long as it may be.
pub fn sheet(random: &mut Random) -> Sheet {
    let length = random.between(SHEET_BYTES - 3, SHEET_BYTES + 3);
    sheet_of(random, length)
}

/// A sheet of exactly so many bytes.
pub fn sheet_of(random: &mut Random, length: usize) -> Sheet {
    let mut sheet = Sheet::default();
    sheet.line("perm 3");
    sheet.line("temp l1 3 l1:1,l1:4");
    let silent = &SILENT[..random.between(1, SILENT.len())];
    while sheet.len() + PADDING + LONGEST_PART <= length {
        sheet.line(random.pick(silent));
    }
    let rest = length - sheet.len();
    pad_sheet(&mut sheet, rest);
    sheet
}

/// Adds exactly so many bytes, in lines of 6 or 5 of them.
fn pad_sheet(sheet: &mut Sheet, bytes: usize) {
    let sixes = bytes % 5;
    sheet.lines(sixes, "reset");
    sheet.lines((bytes - 6 * sixes) / 5, "sets");
}
