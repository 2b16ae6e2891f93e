//! Empty sheets and sheets of one line.

use crate::text::Sheet;
use judging::random::Random;

const LINES: [&str; 34] = [
    "temp h 0 -",
    "temp l1 2 h:1,l1:2",
    "perm 0",
    "sets",
    "head",
    "head -",
    "head 0",
    "args 3",
    "args",
    "var q d l1 0",
    "anon f s h",
    "anon q r l1",
    "nonvar q d m2 0",
    "nonvar q s l2 7",
    "nonvar f r h 9",
    "cut 0 0",
    "incr 0",
    "free 0 0",
    "safe 0",
    "give 5",
    "tail 1",
    "next",
    "open 0 0 0",
    "arm 1 1",
    "take",
    "close",
    "close 0",
    "close 1",
    "reset",
    "contents",
    "clearfree",
    "-",
    "end 1 0",
    "no",
];

pub fn tiny(random: &mut Random) -> Sheet {
    let mut sheet = Sheet::default();
    if !random.one_in(5) {
        sheet.line(random.pick(&LINES));
    }
    sheet
}
