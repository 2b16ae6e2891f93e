//! Small sheets of one variable that is wanted before and after calls. Its value is read from
//! any place that has ever held it: by right from a slot or from a register written since the
//! call, by wrong from one that the call spoilt.

use crate::text::{Place, Step, call, deep, moving, register, shallow, slot, subterm};
use judging::random::Random;

const VARIABLE: usize = 0;
/// The registers of arguments.
const ARGUMENTS: [usize; 3] = [1, 2, 63];

/// Where the value is put to be kept.
fn keeping_place(random: &mut Random) -> Place {
    let numbers = [1, 5, 63];
    match random.below(3) {
        0 => register(random.pick(&numbers)),
        _ => slot(random.pick(&numbers)),
    }
}

pub fn kept(random: &mut Random) -> Vec<Step> {
    let mut keeper = Keeper::with_first_step(random);
    for _ in 0..random.between(1, 3) {
        for _ in 0..random.below(3) {
            keeper.write_use(random);
        }
        keeper.write_call();
    }
    keeper.steps
}

struct Keeper {
    steps: Vec<Step>,
    /// Places that have held the value.
    holders: Vec<Place>,
    /// Registers that are no argument of this goal yet.
    free: Vec<usize>,
}

impl Keeper {
    fn with_first_step(random: &mut Random) -> Self {
        let mut free = ARGUMENTS.to_vec();
        let place = keeping_place(random);
        let k = free[random.below(free.len())];
        let (step, holders) = match random.below(5) {
            0 => (shallow("h", k, VARIABLE), vec![register(k)]),
            1 => {
                let step = shallow("h", k, VARIABLE);
                let step = step.with(moving("get_variable", place, k));
                (step, vec![register(k), place])
            }
            2 => {
                let step = deep("hd", VARIABLE);
                (step.with(subterm("unify_variable", place)), vec![place])
            }
            3 => {
                let step = deep("gd", VARIABLE);
                (step.with(subterm("set_variable", place)), vec![place])
            }
            _ => {
                free.retain(|other| *other != k);
                let step = shallow("g", k, VARIABLE);
                let step = step.with(moving("put_variable", place, k));
                (step, vec![register(k), place])
            }
        };
        Keeper {
            steps: vec![step],
            holders,
            free,
        }
    }

    fn write_use(&mut self, random: &mut Random) {
        let from = random.pick(&self.holders);
        let argument = random.pick_any(&self.free);
        let mut step = match argument {
            Some(k) if !random.one_in(3) => self.argument(k, from),
            _ => deep("gd", VARIABLE).with(subterm("set_value", from)),
        };
        if from.letter == 'x' && random.one_in(3) {
            let place = keeping_place(random);
            step = step.with(moving("get_variable", place, from.number));
            self.holders.push(place);
        }
        self.steps.push(step);
    }

    /// Nothing is to be done where the value is in the argument's register.
    fn argument(&mut self, k: usize, from: Place) -> Step {
        self.free.retain(|other| *other != k);
        let step = shallow("g", k, VARIABLE);
        if from == register(k) {
            return step;
        }
        self.holders.push(register(k));
        step.with(moving("put_value", from, k))
    }

    fn write_call(&mut self) {
        self.steps.push(call());
        self.free = ARGUMENTS.to_vec();
    }
}
