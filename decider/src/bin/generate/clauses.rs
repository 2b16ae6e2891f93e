//! Right sheets, as a compiler would write them for a clause: a head, then goals.
//!
//! A variable of more than one chunk lives in a slot, every other one in registers. The head
//! and the first goal are one chunk. After a call no register is read before it is written.

use crate::saves::put_off;
use crate::shuffle::shuffle;
use crate::text::{Place, Step, call, deep, moving, register, shallow, slot, subterm};
use judging::random::Random;
use std::collections::BTreeMap;

/// Registers are chosen up to this one, unless a term has more arguments.
const USUAL_REGISTERS: usize = 12;

/// What stands at an argument.
enum Argument {
    Variable(usize),
    /// A term; these variables stand inside it.
    Term(Vec<usize>),
}

struct Clause {
    head: Vec<Argument>,
    goals: Vec<Vec<Argument>>,
}

pub fn clause(random: &mut Random) -> Vec<Step> {
    let variables = random.weighted(&[(3, 2), (6, 4), (3, 7), (1, 64)]);
    let clause = draw_clause(random, variables);
    Compiler::new(random.part(), &clause, variables).compile(&clause)
}

/// A clause with few variables and arguments.
pub fn small_clause(random: &mut Random) -> Vec<Step> {
    let variables = random.between(1, 3);
    let clause = Clause {
        head: draw_arguments(random, 2, variables),
        goals: (0..random.below(3))
            .map(|_| draw_arguments(random, 2, variables))
            .collect(),
    };
    Compiler::new(random.part(), &clause, variables).compile(&clause)
}

fn draw_clause(random: &mut Random, variables: usize) -> Clause {
    let most = random.weighted(&[(8, 4), (3, 8), (1, 30)]);
    let goals = random.weighted(&[(2, 0), (3, 1), (4, 2), (2, 4), (1, 7)]);
    Clause {
        head: draw_arguments(random, most, variables),
        goals: (0..goals)
            .map(|_| draw_arguments(random, most.min(12), variables))
            .collect(),
    }
}

fn draw_arguments(random: &mut Random, most: usize, variables: usize) -> Vec<Argument> {
    let count = random.between(0, most);
    (0..count)
        .map(|_| match random.below(3) {
            0 => {
                let inside = random.below(4);
                Argument::Term((0..inside).map(|_| random.below(variables)).collect())
            }
            _ => Argument::Variable(random.below(variables)),
        })
        .collect()
}

impl Argument {
    fn variables(&self) -> &[usize] {
        match self {
            Argument::Variable(v) => std::slice::from_ref(v),
            Argument::Term(inside) => inside,
        }
    }
}

fn occurs(arguments: &[Argument], v: usize) -> bool {
    arguments
        .iter()
        .any(|argument| argument.variables().contains(&v))
}

/// Whether a variable occurs in more than one chunk.
fn is_permanent(clause: &Clause, v: usize) -> bool {
    let in_head = occurs(&clause.head, v);
    let mut chunks = clause.goals.iter().enumerate();
    let counted =
        |(number, goal): (usize, &Vec<Argument>)| occurs(goal, v) || (number == 0 && in_head);
    let chunk_count = chunks.by_ref().filter(|chunk| counted(*chunk)).count();
    chunk_count > 1
}

struct Compiler {
    random: Random,
    /// The slot of each permanent variable.
    slots: BTreeMap<usize, Place>,
    /// Which variable's value a place is known to hold.
    held: BTreeMap<Place, usize>,
    /// Registers that must not be written: arguments unread, or placed for this goal.
    taken: Vec<usize>,
    /// What is still to come in this chunk, variable by variable.
    to_come: Vec<usize>,
    registers: usize,
    steps: Vec<Step>,
}

impl Compiler {
    fn new(random: Random, clause: &Clause, variables: usize) -> Self {
        let permanent = (0..variables).filter(|v| is_permanent(clause, *v));
        let slots = permanent.zip(1..=63).map(|(v, y)| (v, slot(y))).collect();
        let widest = clause.goals.iter().map(Vec::len).max().unwrap_or(0);
        let registers = USUAL_REGISTERS.max(clause.head.len().max(widest) + 8);
        Compiler {
            random,
            slots,
            held: BTreeMap::new(),
            taken: Vec::new(),
            to_come: Vec::new(),
            registers,
            steps: Vec::new(),
        }
    }

    fn compile(mut self, clause: &Clause) -> Vec<Step> {
        self.expect_variables(&clause.head);
        if let Some(goal) = clause.goals.first() {
            self.expect_variables(goal);
        }
        self.write_head(&clause.head);
        for (number, goal) in clause.goals.iter().enumerate() {
            if number > 0 {
                self.expect_variables(goal);
            }
            self.write_goal(goal);
        }
        put_off(&mut self.random, &mut self.steps);
        self.steps
    }

    fn expect_variables(&mut self, arguments: &[Argument]) {
        let variables = arguments.iter().flat_map(Argument::variables);
        self.to_come.extend(variables);
    }

    /// A step is written, and one occurrence of its variable is past.
    fn pass(&mut self, step: Step, v: usize) {
        self.steps.push(step);
        if let Some(at) = self.to_come.iter().position(|other| *other == v) {
            self.to_come.remove(at);
        }
    }

    fn write_head(&mut self, arguments: &[Argument]) {
        self.taken = (1..=arguments.len()).collect();
        for (argument, k) in arguments.iter().zip(1..) {
            match argument {
                Argument::Variable(v) => self.write_head_variable(k, *v),
                Argument::Term(inside) => self.write_head_term(k, inside),
            }
        }
        self.taken.clear();
    }

    fn write_head_variable(&mut self, k: usize, v: usize) {
        let mut step = shallow("h", k, v);
        match self.holder(v) {
            Some(place) => step = step.with(self.comparison(place, k)),
            None => {
                if let Some(place) = self.place_for_argument(v) {
                    step = step.with(moving("get_variable", place, k));
                    self.held.insert(place, v);
                }
            }
        }
        self.taken.retain(|taken| *taken != k);
        self.held.insert(register(k), v);
        self.pass(step, v);
    }

    /// The slot of a permanent variable; a temporary mostly stays where it is.
    fn place_for_argument(&mut self, v: usize) -> Option<Place> {
        match self.slots.get(&v) {
            Some(slot) => Some(*slot),
            None if self.random.one_in(4) => Some(self.free_register()),
            None => None,
        }
    }

    /// Registers can be compared either way round.
    fn comparison(&mut self, place: Place, k: usize) -> crate::text::Instruction {
        if place.letter == 'x' && self.random.one_in(2) {
            moving("get_value", register(k), place.number)
        } else {
            moving("get_value", place, k)
        }
    }

    /// The term is taken apart first, so its register is free for its variables.
    fn write_head_term(&mut self, k: usize, inside: &[usize]) {
        self.taken.retain(|taken| *taken != k);
        for v in inside {
            self.write_deep_head(*v);
        }
    }

    fn write_deep_head(&mut self, v: usize) {
        let step = deep("hd", v);
        let step = match self.holder(v) {
            None => {
                let place = self.place_for_new(v);
                self.held.insert(place, v);
                step.with(subterm("unify_variable", place))
            }
            Some(place) if place.letter == 'x' && self.random.one_in(8) => {
                self.taken.push(place.number);
                let fresh = self.free_register();
                self.taken.pop();
                self.held.insert(fresh, v);
                step.with(subterm("unify_variable", fresh)).with(moving(
                    "get_value",
                    fresh,
                    place.number,
                ))
            }
            Some(place) => {
                let word = self.random.pick(&["unify_value", "unify_local_value"]);
                step.with(subterm(word, place))
            }
        };
        self.pass(step, v);
    }

    fn write_goal(&mut self, arguments: &[Argument]) {
        let mut order: Vec<usize> = (0..arguments.len()).collect();
        if self.random.one_in(5) {
            shuffle(&mut self.random, &mut order);
        }
        for index in order {
            match &arguments[index] {
                Argument::Variable(v) => self.write_goal_variable(index + 1, *v),
                Argument::Term(inside) => self.write_goal_term(index + 1, inside),
            }
        }
        self.steps.push(call());
        self.taken.clear();
        self.to_come.clear();
        self.held.retain(|place, _| place.letter == 'y');
    }

    fn write_goal_variable(&mut self, k: usize, v: usize) {
        let step = shallow("g", k, v);
        self.taken.push(k);
        if self.held.get(&register(k)) == Some(&v) {
            return self.pass(step, v);
        }
        let step = self.free_argument(step, k);
        let step = match self.holder(v) {
            Some(place) => step.with(moving(self.put_word(place), place, k)),
            None => {
                let place = self.place_for_put(k, v);
                self.held.insert(place, v);
                step.with(moving("put_variable", place, k))
            }
        };
        self.held.insert(register(k), v);
        self.pass(step, v);
    }

    fn put_word(&mut self, place: Place) -> &'static str {
        let unsafe_too = ["put_value", "put_unsafe_value"];
        match place.letter {
            'y' => self.random.pick(&unsafe_too),
            _ => "put_value",
        }
    }

    fn place_for_put(&mut self, k: usize, v: usize) -> Place {
        match self.slots.get(&v) {
            Some(slot) => *slot,
            None if self.random.one_in(2) => register(k),
            None => self.free_register(),
        }
    }

    /// Moves away what an argument register holds, if nothing else holds it and it is still
    /// to come.
    fn free_argument(&mut self, mut step: Step, k: usize) -> Step {
        if !self.is_free(register(k)) {
            let place = self.free_register();
            step = step.with(moving("get_variable", place, k));
            self.copy(register(k), place);
        }
        self.held.remove(&register(k));
        step
    }

    /// A term's register is freed under the first step inside it. A term with no variables
    /// has no step, and the sheet does not see it.
    fn write_goal_term(&mut self, k: usize, inside: &[usize]) {
        if inside.is_empty() {
            return;
        }
        self.taken.push(k);
        for (index, v) in inside.iter().enumerate() {
            let mut step = deep("gd", *v);
            if index == 0 {
                step = self.free_argument(step, k);
            }
            self.write_deep_goal(step, *v);
        }
    }

    fn write_deep_goal(&mut self, step: Step, v: usize) {
        let step = match self.holder(v) {
            None => {
                let place = self.place_for_new(v);
                self.held.insert(place, v);
                step.with(subterm("set_variable", place))
            }
            Some(place) => {
                let word = self.random.pick(&["set_value", "set_local_value"]);
                step.with(subterm(word, place))
            }
        };
        self.pass(step, v);
    }

    fn place_for_new(&mut self, v: usize) -> Place {
        match self.slots.get(&v) {
            Some(slot) => *slot,
            None => self.free_register(),
        }
    }

    /// Any place that holds the variable's value.
    fn holder(&mut self, v: usize) -> Option<Place> {
        let holds = self.held.iter().filter(|(_, held)| **held == v);
        let places: Vec<Place> = holds.map(|(place, _)| *place).collect();
        self.random.pick_any(&places)
    }

    fn copy(&mut self, from: Place, to: Place) {
        if let Some(v) = self.held.get(&from).copied() {
            self.held.insert(to, v);
        }
    }

    /// Whether nothing is lost when the place is written.
    fn is_free(&self, place: Place) -> bool {
        let Some(v) = self.held.get(&place) else {
            return true;
        };
        let holders = self.held.values().filter(|held| *held == v).count();
        holders > 1 || !self.to_come.contains(v)
    }

    /// A register that may be written; what it held is forgotten.
    fn free_register(&mut self) -> Place {
        let all = 1..=self.registers.min(63);
        let may_be_written = |x: &usize| !self.taken.contains(x) && self.is_free(register(*x));
        let free: Vec<usize> = all.filter(may_be_written).collect();
        let few = &free[..free.len().min(4)];
        let chosen = register(self.random.pick(few));
        self.held.remove(&chosen);
        chosen
    }
}
