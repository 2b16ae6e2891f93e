//! Right sheets that are then spoiled in a byte or two.

use crate::clauses::{clause, small_clause};
use crate::text::text;
use judging::damage::Damage::{self, Change, Insert, Other};
use judging::damage::{
    any, cut_end, damage, flip_bit, is_line_end, is_tab, raise_letter, remove_byte,
    remove_last_byte,
};
use judging::random::Random;

pub fn damaged(random: &mut Random) -> Vec<u8> {
    let steps = match random.below(2) {
        0 => clause(random),
        _ => small_clause(random),
    };
    let mut bytes = text(&steps);
    damage(random, &mut bytes, &DAMAGES);
    bytes
}

const DAMAGES: [(usize, Damage); 12] = [
    (2, Change(any, draw_byte)),
    (2, Change(any, flip_bit)),
    (4, Change(u8::is_ascii_digit, draw_digit)),
    (1, Change(is_tab, |_, _| b' ')),
    (1, Change(u8::is_ascii_lowercase, raise_letter)),
    (2, Insert(u8::is_ascii_digit, |_, _| b'0')),
    (2, Insert(u8::is_ascii_digit, draw_digit)),
    (1, Insert(is_line_end, draw_end)),
    (1, Insert(any, draw_byte)),
    (2, Other(remove_byte)),
    (1, Other(cut_end)),
    (2, Other(remove_last_byte)),
];

/// Bytes that sheets are made of, and a few that they are not.
const ALPHABET: &[u8] = b"\t\t\n\n0123456789hgdxy_valuecs- \r\0A\x80\xFF";

fn draw_byte(random: &mut Random, _: u8) -> u8 {
    random.pick(ALPHABET)
}

fn draw_digit(random: &mut Random, _: u8) -> u8 {
    random.pick(b"0123456789")
}

/// What a line must not end in, or an LF that makes one line two.
fn draw_end(random: &mut Random, _: u8) -> u8 {
    random.pick(b"\r\t\n 0")
}
