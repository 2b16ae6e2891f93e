//! Good sheets that are then spoiled in one or two places.

use crate::clauses::clause;
use crate::wild::wild;
use judging::damage::Damage::{self, Change, Insert, Other};
use judging::damage::{
    any, cut_end, damage, flip_bit, is_line_end, is_tab, raise_letter, remove_byte,
    remove_last_byte,
};
use judging::random::Random;
use std::ops::Range;

pub fn damaged(random: &mut Random) -> Vec<u8> {
    let sheet = if random.one_in(2) {
        clause(random)
    } else {
        wild(random)
    };
    let mut bytes = sheet.into_bytes();
    damage(random, &mut bytes, &DAMAGES);
    bytes
}

pub const DAMAGES: [(usize, Damage); 15] = [
    (2, Change(any, flip_bit)),
    (2, Change(any, draw_byte)),
    (1, Change(is_tab, |_, _| b' ')),
    (1, Change(u8::is_ascii_lowercase, raise_letter)),
    (2, Insert(any, draw_byte)),
    (2, Insert(u8::is_ascii_digit, |_, _| b'0')),
    (1, Insert(is_line_end, |_, _| b'\r')),
    (1, Insert(is_line_end, |_, _| b'\t')),
    (1, Insert(is_tab, |_, _| b'\t')),
    (2, Other(remove_byte)),
    (1, Other(cut_end)),
    (1, Other(remove_last_byte)),
    (8, Other(insert_record)),
    (3, Other(repeat_line)),
    (3, Other(remove_line)),
];

/// Bytes that sheets are made of, and a few that they are not.
const ALPHABET: &[u8] = b"\t\t\n\n0123456789-:,hmlfqrsdtempvarx \r\0A\x80\xFF";

fn draw_byte(random: &mut Random, _: u8) -> u8 {
    random.pick(ALPHABET)
}

/// Where a line stands; past the last one stands an empty one.
fn line(random: &mut Random, bytes: &[u8]) -> Range<usize> {
    let lines: Vec<&[u8]> = bytes.split_inclusive(is_line_end).collect();
    let before = random.between(0, lines.len());
    let start = lines[..before].concat().len();
    let length = lines.get(before).map_or(0, |line| line.len());
    start..start + length
}

/// A record before or after an event, itself good or bad.
fn insert_record(random: &mut Random, bytes: &mut Vec<u8>) {
    let record: &[u8] = random.pick(&[
        b"perm\t1\n".as_slice(),
        b"temp\tl1\t2\t-\n",
        b"temp\th\t1\th:1,h:1\n",
        b"perm\t65536\n",
        b"perm\t01\n",
    ]);
    let start = line(random, bytes).start;
    bytes.splice(start..start, record.iter().copied());
}

fn repeat_line(random: &mut Random, bytes: &mut Vec<u8>) {
    let line = line(random, bytes);
    bytes.splice(line.start..line.start, bytes[line].to_vec());
}

fn remove_line(random: &mut Random, bytes: &mut Vec<u8>) {
    let line = line(random, bytes);
    bytes.drain(line);
}
