//! Right sheets with a slip or two in them.

// All edits have one type, whether they change the count of steps or not.
#![allow(clippy::ptr_arg)]

use crate::text::{Instruction, Place, Step, register, slot};
use judging::random::Random;

/// Makes so many edits as are drawn, mostly one.
pub fn edit(random: &mut Random, mut steps: Vec<Step>) -> Vec<Step> {
    for _ in 0..random.weighted(&[(6, 1), (1, 2)]) {
        let edit = random.weighted(&EDITS);
        edit(random, &mut steps);
    }
    steps
}

type Edit = fn(&mut Random, &mut Vec<Step>);

const EDITS: [(usize, Edit); 19] = [
    (6, |random, steps| {
        at_instruction(random, steps, shift_place)
    }),
    (4, |random, steps| at_instruction(random, steps, shift_k)),
    (4, |random, steps| at_instruction(random, steps, turn_round)),
    (2, |random, steps| {
        at_instruction(random, steps, change_letter)
    }),
    (3, |random, steps| {
        at_instruction(random, steps, change_form)
    }),
    (2, |random, steps| {
        at_instruction(random, steps, change_safety)
    }),
    (6, drop_instruction),
    (3, double_instruction),
    (4, swap_instructions),
    (4, move_instruction),
    (5, change_variable),
    (2, shift_step),
    (2, drop_step),
    (2, double_step),
    (3, swap_steps),
    (4, swap_subterms),
    (2, move_call),
    (3, keep_in_register),
    (4, read_register),
];

/// Where an instruction stands: its step, and its place among the step's.
type Position = (usize, usize);

fn positions(steps: &[Step], holds: fn(&Instruction) -> bool) -> Vec<Position> {
    let places =
        |(step, lines): (usize, &Step)| (0..lines.instructions.len()).map(move |i| (step, i));
    let all = steps.iter().enumerate().flat_map(places);
    all.filter(|(step, index)| holds(&steps[*step].instructions[*index]))
        .collect()
}

fn position(random: &mut Random, steps: &[Step]) -> Option<Position> {
    random.pick_any(&positions(steps, |_| true))
}

fn at_instruction(
    random: &mut Random,
    steps: &mut [Step],
    change: fn(&mut Random, &mut Instruction),
) {
    if let Some((step, index)) = position(random, steps) {
        change(random, &mut steps[step].instructions[index]);
    }
}

fn shifted(random: &mut Random, number: usize) -> usize {
    match random.below(2) {
        0 => number + 1,
        _ => number.saturating_sub(1),
    }
}

fn shift_place(random: &mut Random, instruction: &mut Instruction) {
    instruction.place.number = shifted(random, instruction.place.number);
}

fn shift_k(random: &mut Random, instruction: &mut Instruction) {
    instruction.k = instruction.k.map(|k| shifted(random, k));
}

/// `get_value` means the same either way round; a move does not.
fn turn_round(_: &mut Random, instruction: &mut Instruction) {
    if let (Some(k), 'x') = (instruction.k, instruction.place.letter) {
        instruction.k = Some(instruction.place.number);
        instruction.place = register(k);
    }
}

fn change_letter(_: &mut Random, instruction: &mut Instruction) {
    instruction.place = match instruction.place.letter {
        'x' => slot(instruction.place.number),
        _ => register(instruction.place.number),
    };
}

/// One slot's part is played by a register, over calls as well.
fn keep_in_register(random: &mut Random, steps: &mut Vec<Step>) {
    if let Some((step, index)) = random.pick_any(&positions(steps, names_slot)) {
        let slot = steps[step].instructions[index].place;
        let number = random.between(1, 63);
        let instructions = steps.iter_mut().flat_map(|step| &mut step.instructions);
        for instruction in instructions.filter(|instruction| instruction.place == slot) {
            name_register(instruction, number);
        }
    }
}

fn names_slot(instruction: &Instruction) -> bool {
    instruction.place.letter == 'y'
}

/// `put_unsafe_value` takes no register.
fn name_register(instruction: &mut Instruction, number: usize) {
    instruction.place = register(number);
    if instruction.word == "put_unsafe_value" {
        instruction.word = "put_value";
    }
}

/// After a call a register is read where the slot was meant, mostly one that has held the
/// same.
fn read_register(random: &mut Random, steps: &mut Vec<Step>) {
    let is_call = |step: &Step| step.word == "call";
    let first_call = steps.iter().position(is_call).unwrap_or(steps.len());
    let mut reading = positions(steps, reads_slot);
    reading.retain(|(step, _)| *step > first_call);
    if let Some((step, index)) = random.pick_any(&reading) {
        let slot = steps[step].instructions[index].place;
        let any = random.between(1, 4);
        let number = match random.below(4) {
            0 => any,
            _ => held_by(random, &steps[..step], slot).unwrap_or(any),
        };
        name_register(&mut steps[step].instructions[index], number);
    }
}

fn reads_slot(instruction: &Instruction) -> bool {
    names_slot(instruction) && instruction.word.ends_with("_value")
}

/// A register that was loaded from the slot, or the slot from it.
fn held_by(random: &mut Random, steps: &[Step], slot: Place) -> Option<usize> {
    let instructions = steps.iter().flat_map(|step| &step.instructions);
    let naming = instructions.filter(|instruction| instruction.place == slot);
    let registers: Vec<usize> = naming.filter_map(|instruction| instruction.k).collect();
    random.pick_any(&registers)
}

fn change_form(_: &mut Random, instruction: &mut Instruction) {
    instruction.word = match instruction.word {
        "get_variable" => "get_value",
        "get_value" => "get_variable",
        "put_variable" => "put_value",
        "put_value" | "put_unsafe_value" => "put_variable",
        "set_variable" => "set_value",
        "set_value" | "set_local_value" => "set_variable",
        "unify_variable" => "unify_value",
        _ => "unify_variable",
    };
}

/// Unsafe and local forms act as their plain forms.
fn change_safety(_: &mut Random, instruction: &mut Instruction) {
    instruction.word = match instruction.word {
        "put_value" => "put_unsafe_value",
        "put_unsafe_value" => "put_value",
        "set_value" => "set_local_value",
        "set_local_value" => "set_value",
        "unify_value" => "unify_local_value",
        "unify_local_value" => "unify_value",
        word => word,
    };
}

fn drop_instruction(random: &mut Random, steps: &mut Vec<Step>) {
    if let Some((step, index)) = position(random, steps) {
        steps[step].instructions.remove(index);
    }
}

fn double_instruction(random: &mut Random, steps: &mut Vec<Step>) {
    if let Some((step, index)) = position(random, steps) {
        let instruction = steps[step].instructions[index];
        steps[step].instructions.insert(index, instruction);
    }
}

/// Two instructions change places.
fn swap_instructions(random: &mut Random, steps: &mut Vec<Step>) {
    if let (Some((one, i)), Some((other, j))) = (position(random, steps), position(random, steps)) {
        let instruction = steps[one].instructions[i];
        steps[one].instructions[i] = steps[other].instructions[j];
        steps[other].instructions[j] = instruction;
    }
}

/// An instruction goes under a neighbouring step.
fn move_instruction(random: &mut Random, steps: &mut Vec<Step>) {
    if let Some((step, index)) = position(random, steps) {
        let instruction = steps[step].instructions.remove(index);
        let neighbour = shifted(random, step).min(steps.len() - 1);
        steps[neighbour].instructions.push(instruction);
    }
}

fn any_step(random: &mut Random, steps: &[Step]) -> Option<usize> {
    let indices: Vec<usize> = (0..steps.len()).collect();
    random.pick_any(&indices)
}

fn change_variable(random: &mut Random, steps: &mut Vec<Step>) {
    if let Some(step) = any_step(random, steps) {
        steps[step].v = steps[step].v.map(|v| shifted(random, v));
    }
}

fn shift_step(random: &mut Random, steps: &mut Vec<Step>) {
    if let Some(step) = any_step(random, steps) {
        steps[step].k = steps[step].k.map(|k| shifted(random, k));
    }
}

fn drop_step(random: &mut Random, steps: &mut Vec<Step>) {
    if let Some(step) = any_step(random, steps) {
        steps.remove(step);
    }
}

fn double_step(random: &mut Random, steps: &mut Vec<Step>) {
    if let Some(step) = any_step(random, steps) {
        steps.insert(step, steps[step].clone());
    }
}

fn swap_steps(random: &mut Random, steps: &mut Vec<Step>) {
    if let Some(step) = any_step(random, steps) {
        let neighbour = shifted(random, step).min(steps.len() - 1);
        steps.swap(step, neighbour);
    }
}

/// Two deep steps change their instructions, or their variables.
fn swap_subterms(random: &mut Random, steps: &mut Vec<Step>) {
    let is_deep = |index: &usize| steps[*index].word.ends_with('d');
    let deep: Vec<usize> = (0..steps.len()).filter(is_deep).collect();
    if deep.len() < 2 {
        return;
    }
    let first = random.below(deep.len() - 1);
    let (one, other) = (deep[first], deep[first + 1]);
    if random.one_in(2) {
        let instructions = std::mem::take(&mut steps[one].instructions);
        steps[one].instructions = std::mem::replace(&mut steps[other].instructions, instructions);
    } else {
        (steps[one].v, steps[other].v) = (steps[other].v, steps[one].v);
    }
}

fn move_call(random: &mut Random, steps: &mut Vec<Step>) {
    let is_call = |index: &usize| steps[*index].word == "call";
    let calls: Vec<usize> = (0..steps.len()).filter(is_call).collect();
    if let Some(at) = random.pick_any(&calls) {
        let call = steps.remove(at);
        let to = random.between(0, steps.len());
        steps.insert(to, call);
    }
}
