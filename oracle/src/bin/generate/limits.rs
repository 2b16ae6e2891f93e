//! Sheets that come to a limit: just below it, at it, or one past it.

use crate::fields::{context, level, target};
use crate::text::{self, Sheet};
use judging::random::Random;
use oracle::limits::{
    ARGUMENT_COUNTER, ARGUMENTS, CELLS, CHUNKS, CLOSE_VARIABLES, COUNTS, FREED_REGISTERS,
    FREED_SLOTS, OPEN_BRANCHES, REGISTERS, SLOTS, USES, VARIABLES,
};

pub fn at_a_limit(random: &mut Random) -> Sheet {
    let write = random.weighted(&LIMITS);
    let mut sheet = Sheet::default();
    write(random, &mut sheet);
    sheet
}

type WriteSheet = fn(&mut Random, &mut Sheet);

const LIMITS: [(usize, WriteSheet); 17] = [
    (3, variables),
    (3, uses),
    (3, head_fields),
    (3, close_variables),
    (3, open_branches),
    (3, freed_registers),
    (3, freed_slots),
    (20, slots),
    (8, registers),
    (6, evacuation),
    (6, argument_counter),
    (6, arm_index),
    (6, stops),
    (6, record_sizes),
    (10, event_sizes),
    (3, starts_and_spans),
    (6, several_at_once),
];

/// The largest number that has a right form.
const LARGEST: usize = 4_294_967_295;

/// A count about a limit, past it one time in four.
fn near(random: &mut Random, limit: usize) -> usize {
    random.pick(&[limit - 1, limit, limit, limit + 1])
}

/// A number about its limit, about the largest one, or 0.
fn near_number(random: &mut Random, limit: usize) -> usize {
    if random.one_in(3) {
        random.pick(&[limit + 1, LARGEST, LARGEST + 1])
    } else {
        random.pick(&[0, limit - 1, limit, limit])
    }
}

fn variables(random: &mut Random, sheet: &mut Sheet) {
    let count = near(random, VARIABLES);
    for _ in 0..count {
        sheet.line(random.pick(&["perm 1", "temp l1 1 -", "temp h 2 l1:1"]));
    }
    if random.one_in(8) {
        sheet.line("perm 65536");
    }
    let target = target(random);
    let context = context(random, 1);
    let last = near(random, VARIABLES - 1);
    sheet.line(format_args!("var {target} d {context} {last}"));
}

fn uses(random: &mut Random, sheet: &mut Sheet) {
    let count = near(random, USES);
    let highest = random.pick(&[3, REGISTERS]);
    let pair = |_| format!("l1:{}", random.between(1, highest));
    let pairs: Vec<String> = (0..count).map(pair).collect();
    sheet.line(format_args!("temp l1 2 {}", text::uses(&pairs)));
    sheet.line("temp l1 1 l1:2");
    sheet.line("sets");
    sheet.line("var q d l1 0");
    sheet.line("var q d l1 1");
}

fn head_fields(random: &mut Random, sheet: &mut Sheet) {
    let count = near(random, ARGUMENTS);
    let fields = (0..count).map(|_| random.pick(&["-", "0", "1", "2"]));
    sheet.line("temp h 3 -");
    sheet.line("temp l0 3 h:1,l0:2");
    sheet.line("perm 3");
    sheet.line_with_list("head", fields);
    sheet.line("var f s h 0");
    sheet.line("var f s h 2");
}

fn close_variables(random: &mut Random, sheet: &mut Sheet) {
    let count = near(random, CLOSE_VARIABLES);
    let fields = (0..count).map(|_| random.below(2));
    sheet.lines(2, "perm 5");
    sheet.line("open 4 4 2");
    sheet.line("var q d m0 1");
    sheet.line_with_list("close 1", fields);
    sheet.line("var q d m1 1");
}

fn open_branches(random: &mut Random, sheet: &mut Sheet) {
    let count = near(random, OPEN_BRANCHES);
    sheet.line("perm 40");
    for start in 0..count {
        let arms = random.between(1, 3);
        sheet.line(format_args!("open {start} 9 {arms}"));
        sheet.line("var q d m0 0");
        if random.one_in(2) {
            sheet.line("take");
        }
    }
    if random.one_in(8) {
        sheet.line("open 1 1 65536");
    }
    let depth = near(random, count);
    sheet.line(format_args!("close {depth} 0"));
}

fn freed_registers(random: &mut Random, sheet: &mut Sheet) {
    for _ in 0..near(random, FREED_REGISTERS) {
        let register = random.between(1, REGISTERS);
        sheet.line(format_args!("give {register}"));
    }
    let taken = random.below(4);
    sheet.lines(taken, "anon q d m0");
}

fn freed_slots(random: &mut Random, sheet: &mut Sheet) {
    sheet.lines(4, "perm 1");
    sheet.line("var q d m0 0");
    sheet.line("var q d m0 1");
    for _ in 0..near(random, FREED_SLOTS) {
        let variable = random.below(2);
        sheet.line(format_args!("free 1 {variable}"));
    }
    let chunk = random.below(4);
    sheet.line(format_args!("var q d m{chunk} 2"));
    sheet.line(format_args!("free {chunk} 2"));
    sheet.line(format_args!("var q d m{chunk} 3"));
}

/// The last slot may have to be found at a bad arm, or with a full queue.
fn slots(random: &mut Random, sheet: &mut Sheet) {
    let count = random.pick(&[SLOTS - 1, SLOTS, SLOTS + 1, SLOTS + 1]);
    sheet.lines(count, random.pick(&["perm 0", "perm 2"]));
    let chunk = random.below(3);
    for variable in 0..count {
        if variable + 1 == count && random.one_in(2) {
            let freed = random.between(0, FREED_SLOTS);
            sheet.line("open 1 1 0");
            sheet.lines(freed, format_args!("free {chunk} 0"));
        }
        match random.below(3) {
            0 => sheet.line(format_args!("cut {variable} {chunk}")),
            1 => sheet.line(format_args!("var f d h {variable}")),
            _ => sheet.line(format_args!("var q d m{chunk} {variable}")),
        }
    }
}

fn registers(random: &mut Random, sheet: &mut Sheet) {
    sheet.lines(3, "temp l1 2 -");
    sheet.line("temp l1 2 l1:63,l1:62");
    let first = random.between(56, ARGUMENTS);
    sheet.line(format_args!("args {first}"));
    for variable in 0..4 {
        let target = target(random);
        match random.below(4) {
            0 => sheet.line(format_args!("anon {target} d l1")),
            1 => sheet.line(format_args!("nonvar {target} d m1 0")),
            2 => sheet.line(format_args!("cut {variable} 1")),
            _ => sheet.line(format_args!("var {target} d l1 {variable}")),
        }
    }
}

/// Arguments that hold variables must be moved away, perhaps to no register at all.
fn evacuation(random: &mut Random, sheet: &mut Sheet) {
    let arity = random.between(55, ARGUMENTS);
    sheet.lines(arity, "temp l1 2 -");
    sheet.line("perm 2");
    sheet.line_with_list("head", 0..arity);
    sheet.line("args 2");
    for _ in 0..random.between(1, 12) {
        let context = context(random, 1);
        let variable = random.between(0, arity);
        match random.below(4) {
            0 => sheet.line(format_args!("anon q s {context}")),
            1 => sheet.line(format_args!("nonvar q s {context} 0")),
            _ => sheet.line(format_args!("var q s {context} {variable}")),
        }
    }
}

fn argument_counter(random: &mut Random, sheet: &mut Sheet) {
    sheet.line("perm 9");
    sheet.line("temp l1 9 l1:63");
    let passed = near(random, ARGUMENT_COUNTER - 1);
    sheet.lines(passed, "next");
    let target = target(random);
    let level = level(random);
    let context = context(random, 1);
    let variable = random.below(2);
    match random.below(3) {
        0 => sheet.line(format_args!("anon {target} {level} {context}")),
        1 => sheet.line(format_args!("nonvar {target} {level} {context} 0")),
        _ => sheet.line(format_args!("var {target} {level} {context} {variable}")),
    }
}

fn arm_index(random: &mut Random, sheet: &mut Sheet) {
    let arms = random.between(0, 5);
    let passed = random.between(0, arms);
    sheet.line("perm 3");
    sheet.line("temp m0 3 -");
    sheet.line(format_args!("open 6 6 {arms}"));
    sheet.lines(passed, "arm 7 1");
    sheet.line("take");
    match random.below(3) {
        0 => {
            sheet.line("open 7 1 1");
            sheet.line("close 1 0");
        }
        1 => sheet.line("var q d m0 1"),
        _ => sheet.line("var q d m0 0"),
    }
}

/// One of the events at which the original stops, or a near relation of it.
fn stops(random: &mut Random, sheet: &mut Sheet) {
    sheet.line("temp l1 4 l1:2");
    sheet.line("perm 4");
    let open = random.below(3);
    sheet.lines(open, "open 3 3 2");
    if random.one_in(2) {
        sheet.line("var q d l1 1");
    }
    let depth = random.between(0, open + 1);
    let variable = random.below(2);
    match random.below(4) {
        0 => sheet.line("take"),
        1 => sheet.line("arm 4 1"),
        2 => sheet.line(format_args!("safe {variable}")),
        _ => sheet.line(format_args!("close {depth} {variable}")),
    }
    sheet.line("var q d l1 1");
}

/// Lines with a number, shown as `#`, and the number's limit.
const RECORD_SIZES: [(&str, usize); 7] = [
    ("perm #", COUNTS),
    ("temp l1 # -", COUNTS),
    ("temp l# 1 -", CHUNKS),
    ("temp m# 1 h:1", CHUNKS),
    ("temp l1 1 l#:1", CHUNKS),
    ("temp l1 1 h:2,m#:1", CHUNKS),
    ("temp l1 1 l1:#", REGISTERS),
];

fn record_sizes(random: &mut Random, sheet: &mut Sheet) {
    let (line, limit) = random.pick(&RECORD_SIZES);
    let number = near_number(random, limit);
    sheet.line(line.replace('#', &number.to_string()));
    sheet.line("sets");
    sheet.line("var q d l255 0");
}

/// These events follow three records and one open branch.
const EVENT_SIZES: [(&str, usize); 18] = [
    ("args #", ARGUMENTS),
    ("tail #", 1),
    ("give #", REGISTERS),
    ("nonvar q d l1 #", CELLS),
    ("nonvar f s h #", CELLS),
    ("var q d m# 1", CHUNKS),
    ("var f s l# 0", CHUNKS),
    ("anon q d l#", CHUNKS),
    ("nonvar q r m# 0", CHUNKS),
    ("cut 1 #", CHUNKS),
    ("free # 1", CHUNKS),
    ("open 1 1 #", COUNTS),
    ("var q d m1 #", 2),
    ("cut # 0", 2),
    ("free 0 #", 2),
    ("incr #", 2),
    ("head 0 - #", 2),
    ("close 1 1 #", 2),
];

fn event_sizes(random: &mut Random, sheet: &mut Sheet) {
    sheet.line("temp l1 2 l1:1");
    sheet.lines(2, "perm 2");
    sheet.line("open 2 2 2");
    for _ in 0..random.between(1, 3) {
        let (line, limit) = random.pick(&EVENT_SIZES);
        let number = near_number(random, limit);
        sheet.line(line.replace('#', &number.to_string()));
    }
}

/// Several grounds to refuse one mark. The order of the original's steps decides.
fn several_at_once(random: &mut Random, sheet: &mut Sheet) {
    sheet.line("temp l1 9 -");
    sheet.line(random.pick(&["perm 0", "perm 9"]));
    sheet.line("head 0");
    let no_register = (1, format!("args {ARGUMENTS}"));
    let no_arm = (1, "open 1 1 0".to_string());
    let full_queue = (FREED_SLOTS, "free 1 1".to_string());
    for (count, line) in [no_register, no_arm, full_queue] {
        if !random.one_in(3) {
            sheet.lines(count, line);
        }
    }
    if random.one_in(5) {
        sheet.lines(ARGUMENT_COUNTER - 1, "next");
    }
    let level = level(random);
    let context = context(random, 1);
    sheet.line(format_args!("var q {level} {context} 1"));
}

/// Any number that has a right form is a start or a span; their sum may pass 32 bits.
fn starts_and_spans(random: &mut Random, sheet: &mut Sheet) {
    let start = near_number(random, LARGEST);
    let span = near_number(random, LARGEST);
    sheet.line("perm 9");
    sheet.line(format_args!("open {start} {span} 2"));
    sheet.line("var q d m1 0");
    sheet.line(format_args!("open {} {span} 2", start / 2 + 1));
    sheet.line("var q d m1 0");
    sheet.line(format_args!("arm {start} 1"));
    sheet.line("var f d m1 0");
    let depth = near_number(random, 2);
    sheet.line(format_args!("close {depth} 0"));
}
