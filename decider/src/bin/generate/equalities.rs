//! Sheets dense in equalities: many steps for few variables, compared in any order.

use crate::shuffle::shuffle;
use crate::text::{Instruction, Place, Step, call, deep, moving, register, shallow, slot, subterm};
use judging::random::Random;

/// Instructions of a step; one place is left for the step's own.
const MOST_COMPARISONS: usize = 3;

/// What is needed to write such a sheet.
struct Plan {
    /// The head's steps; deep ones take registers that no argument has.
    steps: Vec<Step>,
    /// Where each step's number or argument stands, with its variable.
    holders: Vec<(Place, usize)>,
}

/// A sheet with up to so many head steps; right if so many comparisons are lost or crossed
/// as none.
pub fn equalities(random: &mut Random, most_steps: usize) -> Vec<Step> {
    let slips = random.weighted(&[(4, 0), (2, 1), (1, 2)]);
    let mut plan = plan(random, most_steps);
    let mut comparisons = comparisons(random, &plan.holders);
    for _ in 0..slips {
        slip(random, &plan.holders, &mut comparisons);
    }
    shuffle(random, &mut comparisons);
    place_comparisons(random, &mut plan.steps, comparisons);
    write_goal(random, &mut plan);
    plan.steps
}

fn plan(random: &mut Random, most_steps: usize) -> Plan {
    let variables = random.between(1, 3);
    let count = random.between(1, most_steps);
    let mut plan = Plan {
        steps: Vec::new(),
        holders: Vec::new(),
    };
    for k in 1..=count {
        let v = random.below(variables);
        let (step, place) = head_step(random, k, v);
        plan.steps.push(step);
        plan.holders.push((place, v));
    }
    plan
}

/// A step for variable v whose value then stands in register k, or in slot k.
fn head_step(random: &mut Random, k: usize, v: usize) -> (Step, Place) {
    match random.below(6) {
        0 => {
            let place = random.pick(&[register(k), slot(k)]);
            let step = deep("hd", v).with(subterm("unify_variable", place));
            (step, place)
        }
        1 => {
            let step = shallow("h", k, v).with(moving("get_variable", slot(k), k));
            (step, random.pick(&[register(k), slot(k)]))
        }
        _ => (shallow("h", k, v), register(k)),
    }
}

/// For each variable so many comparisons that all its holders are equal, and some more.
fn comparisons(random: &mut Random, holders: &[(Place, usize)]) -> Vec<Instruction> {
    let mut comparisons = Vec::new();
    for (index, (place, v)) in holders.iter().enumerate() {
        let earlier: Vec<Place> = holders_of(&holders[..index], *v);
        if let Some(other) = random.pick_any(&earlier) {
            comparisons.extend(comparison(random, *place, other));
        }
        if random.one_in(6)
            && let Some(other) = random.pick_any(&earlier)
        {
            comparisons.extend(comparison(random, other, *place));
        }
    }
    comparisons
}

fn holders_of(holders: &[(Place, usize)], v: usize) -> Vec<Place> {
    let held = holders.iter().filter(|(_, held)| *held == v);
    held.map(|(place, _)| *place).collect()
}

/// Two slots cannot be compared.
fn comparison(random: &mut Random, one: Place, other: Place) -> Option<Instruction> {
    let (one, other) = match random.below(2) {
        0 => (one, other),
        _ => (other, one),
    };
    match (one.letter, other.letter) {
        (_, 'x') => Some(moving("get_value", one, other.number)),
        ('x', _) => Some(moving("get_value", other, one.number)),
        _ => None,
    }
}

/// Loses a comparison, or adds one between any two places.
fn slip(random: &mut Random, holders: &[(Place, usize)], comparisons: &mut Vec<Instruction>) {
    if random.one_in(2) && !comparisons.is_empty() {
        let lost = random.below(comparisons.len());
        comparisons.swap_remove(lost);
    } else {
        let (one, _) = random.pick(holders);
        let (other, _) = random.pick(holders);
        comparisons.extend(comparison(random, one, other));
    }
}

/// Comparisons stand under the last steps, where every place has its content.
fn place_comparisons(random: &mut Random, steps: &mut Vec<Step>, mut left: Vec<Instruction>) {
    let few = left.len().min(MOST_COMPARISONS);
    if let Some(step) = steps.last_mut() {
        step.instructions.extend(left.drain(..few));
    }
    while !left.is_empty() {
        let few = left.len().min(random.between(1, 4));
        let mut step = steps[0].clone();
        if step.word != "h" {
            step = shallow("h", 63, 63);
        }
        step.instructions = left.drain(..few).collect();
        steps.push(step);
    }
}

/// A goal that takes its arguments from any holder of their variables.
fn write_goal(random: &mut Random, plan: &mut Plan) {
    let first = plan.steps.len();
    for k in 1..=random.below(4) {
        let (_, v) = random.pick(&plan.holders);
        let (place, other) = random.pick(&plan.holders);
        let place = if other == v || random.one_in(8) {
            place
        } else {
            random.pick(&holders_of(&plan.holders, v))
        };
        plan.steps
            .push(goal_step(random, plan.holders.len() + k, v, place));
    }
    if plan.steps.len() > first {
        plan.steps.push(call());
    }
}

/// The argument's register is none of those that hold a variable.
fn goal_step(random: &mut Random, k: usize, v: usize, place: Place) -> Step {
    match random.below(3) {
        0 => deep("gd", v).with(subterm("set_value", place)),
        _ if place.letter == 'x' && random.one_in(3) => shallow("g", place.number, v),
        _ => shallow("g", k, v).with(moving("put_value", place, k)),
    }
}
