//! Damage to a sheet's bytes.

use crate::random::Random;
use Damage::{Change, Insert, Other};

/// A way to damage a sheet.
#[derive(Clone, Copy)]
pub enum Damage {
    /// A byte that satisfies the test becomes another.
    Change(Test, Make),
    /// A byte comes in before one that satisfies the test.
    Insert(Test, Make),
    Other(fn(&mut Random, &mut Vec<u8>)),
}

pub type Test = fn(&u8) -> bool;

/// Makes a byte, perhaps from the one that stands there.
pub type Make = fn(&mut Random, u8) -> u8;

/// Damages a sheet once or twice, in each way as often as its weight says.
pub fn damage(random: &mut Random, bytes: &mut Vec<u8>, ways: &[(usize, Damage)]) {
    for _ in 0..random.between(1, 2) {
        match random.weighted(ways) {
            Change(test, make) => change(random, bytes, test, make),
            Insert(test, make) => insert(random, bytes, test, make),
            Other(damage) => damage(random, bytes),
        }
    }
}

pub fn any(_: &u8) -> bool {
    true
}

pub fn is_tab(byte: &u8) -> bool {
    *byte == b'\t'
}

pub fn is_line_end(byte: &u8) -> bool {
    *byte == b'\n'
}

pub fn flip_bit(random: &mut Random, byte: u8) -> u8 {
    byte ^ (1 << random.below(8))
}

pub fn raise_letter(_: &mut Random, byte: u8) -> u8 {
    byte.to_ascii_uppercase()
}

/// Where a byte satisfies the test, if it does anywhere.
fn position(random: &mut Random, bytes: &[u8], test: Test) -> Option<usize> {
    let positions: Vec<usize> = (0..bytes.len()).filter(|at| test(&bytes[*at])).collect();
    random.pick_any(&positions)
}

fn change(random: &mut Random, bytes: &mut [u8], test: Test, make: Make) {
    if let Some(at) = position(random, bytes, test) {
        bytes[at] = make(random, bytes[at]);
    }
}

fn insert(random: &mut Random, bytes: &mut Vec<u8>, test: Test, make: Make) {
    if let Some(at) = position(random, bytes, test) {
        let made = make(random, bytes[at]);
        bytes.insert(at, made);
    }
}

pub fn remove_byte(random: &mut Random, bytes: &mut Vec<u8>) {
    if let Some(at) = position(random, bytes, any) {
        bytes.remove(at);
    }
}

pub fn cut_end(random: &mut Random, bytes: &mut Vec<u8>) {
    let length = random.between(0, bytes.len());
    bytes.truncate(length);
}

/// A sheet loses its last LF.
pub fn remove_last_byte(_: &mut Random, bytes: &mut Vec<u8>) {
    bytes.pop();
}
