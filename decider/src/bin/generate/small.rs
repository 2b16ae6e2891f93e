//! Small sheets of any lines that are in order: few registers, slots, variables and steps.

use crate::shuffle::shuffle;
use crate::text::{Instruction, Place, Step, call, deep, moving, register, shallow, slot, subterm};
use judging::random::Random;

const HEAD_INSTRUCTIONS: [(usize, &str); 4] = [
    (2, "get_variable"),
    (4, "get_value"),
    (3, "unify_variable"),
    (2, "unify_value"),
];

const GOAL_INSTRUCTIONS: [(usize, &str); 5] = [
    (2, "get_variable"),
    (3, "put_variable"),
    (4, "put_value"),
    (2, "set_variable"),
    (3, "set_value"),
];

/// How many registers and variables a sheet has.
struct Measures {
    registers: usize,
    variables: usize,
}

pub fn small(random: &mut Random) -> Vec<Step> {
    let measures = Measures {
        registers: random.between(1, 3),
        variables: random.between(1, 2),
    };
    let mut steps = Vec::new();
    for _ in 0..random.between(0, 3) {
        steps.push(head_step(random, &measures));
    }
    for _ in 0..random.between(0, 2) {
        write_goal(random, &measures, &mut steps);
    }
    steps
}

fn head_step(random: &mut Random, measures: &Measures) -> Step {
    let v = random.below(measures.variables);
    let step = match random.below(3) {
        0 => deep("hd", v),
        _ => shallow("h", random.between(1, measures.registers), v),
    };
    fill(random, measures, step, &HEAD_INSTRUCTIONS)
}

/// No two arguments of a goal have one k.
fn write_goal(random: &mut Random, measures: &Measures, steps: &mut Vec<Step>) {
    let mut registers: Vec<usize> = (1..=measures.registers).collect();
    shuffle(random, &mut registers);
    for k in registers.into_iter().take(random.below(3)) {
        let v = random.below(measures.variables);
        let step = match random.below(4) {
            0 => deep("gd", v),
            _ => shallow("g", k, v),
        };
        steps.push(fill(random, measures, step, &GOAL_INSTRUCTIONS));
    }
    steps.push(call());
}

/// Adds instructions; a deep step mostly has one of a subterm, another step mostly none.
fn fill(
    random: &mut Random,
    measures: &Measures,
    mut step: Step,
    words: &[(usize, &'static str)],
) -> Step {
    for _ in 0..random.weighted(&[(2, 0), (4, 1), (2, 2), (1, 4)]) {
        let word = random.weighted(words);
        let fits = is_subterm(word) == step.k.is_none();
        let numbers_step =
            takes_number(word) && step.instructions.iter().any(|i| takes_number(i.word));
        if (fits || random.one_in(8)) && !numbers_step {
            step = step.with(instruction(random, measures, word));
        }
    }
    step
}

fn is_subterm(word: &str) -> bool {
    word.starts_with("set") || word.starts_with("unify")
}

fn takes_number(word: &str) -> bool {
    matches!(word, "put_variable" | "set_variable") || word.starts_with("unify")
}

fn instruction(random: &mut Random, measures: &Measures, word: &'static str) -> Instruction {
    let place = place(random, measures);
    if is_subterm(word) {
        subterm(word, place)
    } else {
        moving(word, place, random.between(1, measures.registers))
    }
}

fn place(random: &mut Random, measures: &Measures) -> Place {
    match random.below(4) {
        0 => slot(1),
        _ => register(random.between(1, measures.registers)),
    }
}
