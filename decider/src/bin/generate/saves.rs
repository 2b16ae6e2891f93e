//! Moves of head arguments to their slots, put off: right as long as they come before the
//! first `call`, before the register is written and before the slot is looked at.

use crate::text::{Instruction, Step, register};
use decider::limits::INSTRUCTIONS;
use judging::random::Random;

/// Puts off some of the head's moves to slots.
pub fn put_off(random: &mut Random, steps: &mut [Step]) {
    for from in 0..steps.len() {
        if let [save] = steps[from].instructions[..]
            && is_save(&save)
            && random.one_in(3)
            && let Some(to) = random.pick_any(&later_steps(steps, from, &save))
        {
            steps[from].instructions.clear();
            steps[to].instructions.insert(0, save);
        }
    }
}

fn is_save(instruction: &Instruction) -> bool {
    instruction.word == "get_variable" && instruction.place.letter == 'y'
}

/// The steps that can begin with the move instead.
fn later_steps(steps: &[Step], from: usize, save: &Instruction) -> Vec<usize> {
    let mut later = Vec::new();
    for (index, step) in steps.iter().enumerate().skip(from + 1) {
        if step.word == "call" {
            break;
        }
        if step.instructions.len() < INSTRUCTIONS {
            later.push(index);
        }
        if step.instructions.iter().any(|other| hinders(other, save)) {
            break;
        }
    }
    later
}

/// Whether the move would do something else behind this instruction.
fn hinders(instruction: &Instruction, save: &Instruction) -> bool {
    let is_put = instruction.word.starts_with("put");
    let writes_place = instruction.word.ends_with("_variable");
    let names_register = save.k.map(register) == Some(instruction.place);
    instruction.place == save.place
        || (is_put && instruction.k == save.k)
        || (writes_place && names_register)
}
