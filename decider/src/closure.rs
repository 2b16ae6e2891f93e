//! No numbers: what a place holds is found by looking back to the name it came from, and
//! equalities between names are closed as matrices.

use crate::limits::{REGISTERS, STEPS};
use crate::names::{Name, at_entry};
use crate::sheet::Form::{Value, Variable};
use crate::sheet::Instruction::{Get, Put, Set, Unify};
use crate::sheet::Place::{self, Register, Slot};
use crate::sheet::StepLine::{Call, DeepGoal, DeepHead, Goal, Head};
use crate::sheet::{Instruction, Sheet, StepLine};

type Equality = (Name, Name);
type Subterm = (usize, Name);

pub fn is_accepted(sheet: &Sheet) -> bool {
    let history = History::of(sheet);
    let demanded = Matrix::closure_of(&history.demands());
    let wanted = Matrix::closure_of(&wanted_demands(sheet));
    demanded == wanted
        && same_subterms(&wanted, &history.subterms(), &wanted_subterms(sheet))
        && same_arguments(&wanted, &history.arguments(sheet), &wanted_arguments(sheet))
}

fn same_subterms(equal: &Matrix, found: &[Subterm], wanted: &[Subterm]) -> bool {
    let same = |((step, one), (wanted_step, other)): (&Subterm, &Subterm)| {
        step == wanted_step && equal.holds(*one, *other)
    };
    found.len() == wanted.len() && found.iter().zip(wanted).all(same)
}

fn same_arguments(equal: &Matrix, found: &[Name], wanted: &[Name]) -> bool {
    let mut pairs = found.iter().zip(wanted);
    pairs.all(|(one, other)| equal.holds(*one, *other))
}

/// What happens on a sheet in order, each event with its step. A moment is the number of
/// events that are past.
struct History {
    events: Vec<(usize, Event)>,
    /// For each step, the moment after its instructions; for a `call`, the one before it.
    ends: Vec<usize>,
}

#[derive(Clone, Copy)]
enum Event {
    CarriedOut(Instruction),
    Called,
}

/// What an event does to a place.
enum Written {
    Nothing,
    StepsNumber,
    CopyOf(Place),
    LeftIn(u64),
}

impl History {
    fn of(sheet: &Sheet) -> Self {
        let mut history = History {
            events: Vec::new(),
            ends: Vec::new(),
        };
        for (number, step) in sheet.steps.iter().enumerate() {
            let instructions = step.instructions.iter();
            let events = instructions.map(|i| (number, Event::CarriedOut(*i)));
            history.events.extend(events);
            history.ends.push(history.events.len());
            if step.line == Call {
                history.events.push((number, Event::Called));
            }
        }
        history
    }

    /// The name of what the place holds at that moment.
    fn content(&self, mut place: Place, moment: usize) -> Name {
        for (step, event) in self.events[..moment].iter().rev() {
            match written(*event, place) {
                Written::Nothing => {}
                Written::StepsNumber => return Name::Step(*step),
                Written::CopyOf(source) => place = source,
                Written::LeftIn(register) => {
                    return Name::Left {
                        call: *step,
                        register,
                    };
                }
            }
        }
        at_entry(place)
    }

    /// The instructions, each with the moment before it and its step.
    fn instructions(&self) -> impl Iterator<Item = (usize, usize, Instruction)> {
        let moments = self.events.iter().enumerate();
        moments.filter_map(|(moment, (step, event))| match event {
            Event::CarriedOut(instruction) => Some((moment, *step, *instruction)),
            Event::Called => None,
        })
    }

    fn demands(&self) -> Vec<Equality> {
        let demand = |(moment, step, instruction)| {
            let content = |place| self.content(place, moment);
            match instruction {
                Get(Value, place, k) => Some((content(place), content(Register(k)))),
                Unify(Value, place) => Some((content(place), Name::Step(step))),
                _ => None,
            }
        };
        self.instructions().filter_map(demand).collect()
    }

    fn subterms(&self) -> Vec<Subterm> {
        let subterm = |(moment, step, instruction)| match instruction {
            Set(Value, place) => Some((step, self.content(place, moment))),
            Set(Variable, _) | Unify(..) => Some((step, Name::Step(step))),
            Get(..) | Put(..) => None,
        };
        self.instructions().filter_map(subterm).collect()
    }

    /// What each goal step's register holds at the next `call`.
    fn arguments(&self, sheet: &Sheet) -> Vec<Name> {
        let argument = |(number, line): (usize, StepLine)| {
            let Goal { k, .. } = line else { return None };
            let call = next_call(sheet, number);
            Some(self.content(Register(k), self.ends[call]))
        };
        step_lines(sheet).filter_map(argument).collect()
    }
}

fn next_call(sheet: &Sheet, number: usize) -> usize {
    let mut following = step_lines(sheet).skip(number);
    let (call, _) = following
        .find(|(_, line)| *line == Call)
        .expect("a call follows every goal step");
    call
}

fn step_lines(sheet: &Sheet) -> impl Iterator<Item = (usize, StepLine)> {
    sheet.steps.iter().map(|step| step.line).enumerate()
}

fn written(event: Event, place: Place) -> Written {
    match (event, place) {
        (Event::CarriedOut(instruction), _) => written_by(instruction, place),
        (Event::Called, Register(number)) => Written::LeftIn(number),
        (Event::Called, Slot(_)) => Written::Nothing,
    }
}

fn written_by(instruction: Instruction, place: Place) -> Written {
    match instruction {
        Get(Variable, to, k) if to == place => Written::CopyOf(Register(k)),
        Put(Value, from, k) if Register(k) == place => Written::CopyOf(from),
        Put(Variable, to, k) if to == place || Register(k) == place => Written::StepsNumber,
        Set(Variable, to) | Unify(Variable, to) if to == place => Written::StepsNumber,
        _ => Written::Nothing,
    }
}

fn wanted_demands(sheet: &Sheet) -> Vec<Equality> {
    let demand = |(number, line): (usize, StepLine)| match line {
        Head { k, v } => Some((value(sheet, v), Name::EntryRegister(k))),
        DeepHead { v } => Some((value(sheet, v), Name::Step(number))),
        _ => None,
    };
    step_lines(sheet).filter_map(demand).collect()
}

fn wanted_subterms(sheet: &Sheet) -> Vec<Subterm> {
    let subterm = |(number, line): (usize, StepLine)| match line {
        DeepHead { v } | DeepGoal { v } => Some((number, value(sheet, v))),
        _ => None,
    };
    step_lines(sheet).filter_map(subterm).collect()
}

fn wanted_arguments(sheet: &Sheet) -> Vec<Name> {
    let argument = |(_, line): (usize, StepLine)| match line {
        Goal { v, .. } => Some(value(sheet, v)),
        _ => None,
    };
    step_lines(sheet).filter_map(argument).collect()
}

/// A variable's value is fixed by its first step.
fn value(sheet: &Sheet, variable: u64) -> Name {
    let mut steps = step_lines(sheet);
    let first = steps.find(|(_, line)| variable_of(*line) == Some(variable));
    match first.expect("the variable has a step") {
        (_, Head { k, .. }) => Name::EntryRegister(k),
        (number, _) => Name::Step(number),
    }
}

fn variable_of(line: StepLine) -> Option<u64> {
    match line {
        Head { v, .. } | DeepHead { v } | Goal { v, .. } | DeepGoal { v } => Some(v),
        Call => None,
    }
}

/// Every register and slot at entry and every step has a row and a column. What a `call` left
/// has none: no head step follows a `call`, so no equality is demanded of it.
const SIDE: usize = 2 * REGISTERS as usize + STEPS;
const WORD: usize = u64::BITS as usize;
const WORDS: usize = SIDE.div_ceil(WORD);

type Row = [u64; WORDS];

/// Which names are forced to be equal.
#[derive(PartialEq)]
struct Matrix {
    rows: Vec<Row>,
}

impl Matrix {
    /// The least matrix that holds these equalities and is reflexive, symmetric, transitive.
    fn closure_of(equalities: &[Equality]) -> Self {
        let mut matrix = Matrix {
            rows: vec![[0; WORDS]; SIDE],
        };
        for index in 0..SIDE {
            matrix.add(index, index);
        }
        for (one, other) in equalities {
            let index = |name| index_of(name).expect("no equality is demanded after a call");
            matrix.add(index(*one), index(*other));
            matrix.add(index(*other), index(*one));
        }
        matrix.saturate()
    }

    /// Multiplies the matrix with itself until nothing is added.
    fn saturate(self) -> Self {
        let mut matrix = self;
        loop {
            let square = matrix.squared();
            if square == matrix {
                return matrix;
            }
            matrix = square;
        }
    }

    fn squared(&self) -> Self {
        let rows = self.rows.iter().map(|row| self.row_times_self(row));
        Matrix {
            rows: rows.collect(),
        }
    }

    fn row_times_self(&self, row: &Row) -> Row {
        let mut product = [0; WORDS];
        for index in columns(row) {
            for (sum, word) in product.iter_mut().zip(&self.rows[index]) {
                *sum |= word;
            }
        }
        product
    }

    fn add(&mut self, row: usize, column: usize) {
        self.rows[row][column / WORD] |= 1 << (column % WORD);
    }

    /// A name that has no row is equal to itself alone.
    fn holds(&self, one: Name, other: Name) -> bool {
        match (index_of(one), index_of(other)) {
            (Some(row), Some(column)) => has(&self.rows[row], column),
            _ => one == other,
        }
    }
}

/// The columns in which a row has a one.
fn columns(row: &Row) -> Vec<usize> {
    let mut columns = Vec::new();
    for (word, first) in row.iter().zip((0..).step_by(WORD)) {
        let mut rest = *word;
        while rest != 0 {
            columns.push(first + rest.trailing_zeros() as usize);
            rest &= rest - 1;
        }
    }
    columns
}

fn has(row: &Row, column: usize) -> bool {
    row[column / WORD] >> (column % WORD) & 1 == 1
}

/// The number of a name's row and column, if it has them.
fn index_of(name: Name) -> Option<usize> {
    let registers = REGISTERS as usize;
    match name {
        Name::EntryRegister(number) => Some(number as usize - 1),
        Name::EntrySlot(number) => Some(registers + number as usize - 1),
        Name::Step(number) => Some(2 * registers + number),
        Name::Left { .. } => None,
    }
}
