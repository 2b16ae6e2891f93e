//! Sheets that come to a limit: just below it, at it, or one past it.

use crate::clauses::{clause, small_clause};
use crate::text::{
    Instruction, Place, Step, call, deep, moving, register, shallow, slot, subterm, text,
};
use decider::limits::{INSTRUCTIONS, SHEET_BYTES, STEPS};
use judging::random::Random;

pub fn at_a_limit(random: &mut Random) -> Vec<u8> {
    let write = random.weighted(&LIMITS);
    text(&write(random))
}

type WriteSteps = fn(&mut Random) -> Vec<Step>;

const LIMITS: [(usize, WriteSteps); 6] = [
    (3, many_steps),
    (3, many_calls),
    (8, many_instructions),
    (6, step_sizes),
    (6, instruction_sizes),
    (6, forbidden_order),
];

/// The largest number that has a right form, and the next.
const LARGEST: [usize; 2] = [4_294_967_295, 4_294_967_296];

fn near(random: &mut Random, limit: usize) -> usize {
    random.pick(&[limit - 1, limit, limit, limit + 1, limit + 1])
}

/// Inside or just outside the size, or about the largest number.
fn near_number(random: &mut Random, first: usize, last: usize) -> usize {
    match random.below(8) {
        0 => random.pick(&LARGEST),
        1 => last + 1,
        2 => 0,
        3 | 4 => last,
        5 => last - 1,
        _ => first,
    }
}

/// A head about as long as may be, all its arguments one variable or each its own.
fn many_steps(random: &mut Random) -> Vec<Step> {
    let count = near(random, STEPS);
    let variables = random.pick(&[1, 3, 63]);
    let mut steps = Vec::new();
    for index in 0..count {
        let (k, v) = (index % 63 + 1, index % 63 % variables);
        let mut step = shallow("h", k, v);
        if k > v + 1 && index < 63 {
            step = step.with(moving("get_value", register(v + 1), k));
        }
        steps.push(step);
    }
    if random.one_in(3) {
        lose_an_instruction(random, &mut steps);
    }
    spoil_last(random, &mut steps);
    steps
}

fn lose_an_instruction(random: &mut Random, steps: &mut [Step]) {
    let index = random.below(steps.len().min(63));
    steps[index].instructions.clear();
}

/// The last step may earn another refusal before its 7.
fn spoil_last(random: &mut Random, steps: &mut [Step]) {
    if let Some(step) = steps.last_mut() {
        match random.below(8) {
            0 => step.v = Some(64),
            1 => step.k = Some(0),
            _ => {}
        }
    }
}

/// Goals of one argument and a deep subterm, again and again; a slot keeps the variable over
/// them, and a register does not.
fn many_calls(random: &mut Random) -> Vec<Step> {
    let count = near(random, STEPS);
    let place = random.pick(&[register(9), slot(63)]);
    let mut steps = vec![
        shallow("g", 1, 63).with(moving("put_variable", place, 1)),
        call(),
    ];
    while steps.len() < count {
        steps.push(match steps.len() % 3 {
            0 => deep("gd", 63).with(subterm("set_value", place)),
            1 => shallow("g", 63, 63).with(moving("put_value", place, 63)),
            _ => call(),
        });
    }
    let last = random.below(3);
    if let (Some(step), true) = (steps.last_mut(), last > 0) {
        *step = call();
    }
    steps
}

/// A step of a right clause gets harmless instructions up to its limit, or past it.
fn many_instructions(random: &mut Random) -> Vec<Step> {
    let mut steps = clause(random);
    let open = |step: &&mut Step| step.word != "call";
    let mut filled: Vec<&mut Step> = steps.iter_mut().filter(open).collect();
    if filled.is_empty() {
        return vec![call()];
    }
    let index = random.below(filled.len());
    let step = &mut filled[index];
    let count = random.pick(&[INSTRUCTIONS, INSTRUCTIONS + 1]);
    while step.instructions.len() < count {
        step.instructions.push(moving("get_variable", slot(62), 62));
    }
    if random.one_in(8) {
        step.instructions.push(moving("get_variable", slot(64), 62));
    }
    steps
}

fn step_sizes(random: &mut Random) -> Vec<Step> {
    let k = near_number(random, 1, 63);
    let v = near_number(random, 0, 63);
    let mut steps = small_clause(random);
    let word = random.pick(&["h", "hd", "g", "gd"]);
    let step = match word {
        "h" => shallow(word, k, v),
        "hd" => deep(word, v).with(subterm("unify_variable", register(k))),
        "g" => shallow(word, k, v).with(moving("put_variable", slot(1), k)),
        _ => deep(word, v).with(subterm("set_variable", slot(k))),
    };
    let at = match step.is_head() {
        true => 0,
        false => steps.len(),
    };
    steps.insert(at, step);
    if word.starts_with('g') {
        steps.push(call());
    }
    steps
}

fn instruction_sizes(random: &mut Random) -> Vec<Step> {
    let number = near_number(random, 1, 63);
    let place = random.pick(&[register(number), slot(number)]);
    let k = near_number(random, 1, 63);
    let head = random.one_in(2);
    let instruction = any_instruction(random, head, place, k);
    let mut steps = small_clause(random);
    let fits = |index: &usize| steps[*index].is_head() == head && steps[*index].word != "call";
    let fitting: Vec<usize> = (0..steps.len()).filter(fits).collect();
    match random.pick_any(&fitting) {
        Some(index) => steps[index].instructions.insert(0, instruction),
        None if head => steps.insert(0, shallow("h", 1, 0).with(instruction)),
        None => steps.extend([shallow("g", 1, 0).with(instruction), call()]),
    }
    steps
}

fn any_instruction(random: &mut Random, head: bool, place: Place, k: usize) -> Instruction {
    let words: &[&'static str] = match head {
        true => &[
            "get_variable",
            "get_value",
            "unify_variable",
            "unify_local_value",
        ],
        false => &[
            "get_variable",
            "put_variable",
            "put_value",
            "set_value",
            "put_unsafe_value",
        ],
    };
    let word = random.pick(words);
    match word.starts_with("set") || word.starts_with("unify") {
        true => subterm(word, place),
        false => moving(word, place, k),
    }
}

/// A line that is forbidden where it comes, perhaps out of size as well.
fn forbidden_order(random: &mut Random) -> Vec<Step> {
    let mut steps = clause(random);
    let at = random.between(0, steps.len());
    let v = random.pick(&[0, 1, 64]);
    let k = random.pick(&[1, 1, 2, 64]);
    match random.below(4) {
        0 => steps.insert(at, shallow("h", k, v)),
        1 => steps.insert(
            at,
            shallow("g", k, v).with(moving("put_variable", register(k), k)),
        ),
        2 => steps.push(deep("gd", v)),
        _ => {
            if let Some(step) = steps.get_mut(at) {
                let head = random.one_in(2);
                let place = random.pick(&[register(k), slot(k)]);
                step.instructions
                    .push(any_instruction(random, head, place, 2));
            }
        }
    }
    steps
}

/// A sheet about as long as it may be; no such sheet is read to its end.
pub fn long(random: &mut Random) -> Vec<u8> {
    let length = random.between(SHEET_BYTES - 2, SHEET_BYTES + 2);
    let mut bytes = text(&clause(random));
    while bytes.len() < length {
        bytes.extend(random.pick(&[b"call\n".as_slice(), b"gd\t0\n", b"\n"]));
    }
    bytes.truncate(length);
    bytes
}
