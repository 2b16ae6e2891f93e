//! Clauses with tests, as the original's compiler drives them: a head, and calls with tests before them. The records tell
//! the truth, and the use lists have every argument, a test's too.

use crate::text::{Sheet, uses};
use judging::random::Random;
use std::collections::BTreeSet;
use std::fmt::{self, Display, Formatter};

const VARIABLES: usize = 6;
const ARGUMENTS: usize = 5;
const SUBTERMS: usize = 2;
const CALLS: usize = 3;
/// How many tests stand before a call, each number with its weight.
const TESTS: [(usize, usize); 3] = [(2, 0), (2, 1), (1, 2)];

pub fn driven(random: &mut Random) -> Sheet {
    let clause = Clause::drawn(&mut random.part());
    let mut writer = Writer::new(clause.variables());
    writer.write_head(&clause.head);
    for (number, chunk) in clause.chunks.iter().enumerate() {
        for name in &chunk.tests {
            writer.write_test(Context::Mid(number), *name);
        }
        let is_last = number + 1 == clause.chunks.len();
        writer.write_call(Context::Last(number), &chunk.call, is_last);
    }
    writer.sheet
}

#[derive(Clone, Copy)]
enum Context {
    Head,
    Mid(usize),
    Last(usize),
}

impl Context {
    fn chunk(self) -> usize {
        match self {
            Context::Head => 0,
            Context::Mid(chunk) | Context::Last(chunk) => chunk,
        }
    }
}

impl Display for Context {
    fn fmt(&self, formatter: &mut Formatter) -> fmt::Result {
        match self {
            Context::Head => write!(formatter, "h"),
            Context::Mid(chunk) => write!(formatter, "m{chunk}"),
            Context::Last(chunk) => write!(formatter, "l{chunk}"),
        }
    }
}

/// What stands at an argument. Variables go by names here, which are numbers too; a constant is a term without any.
enum Argument {
    Variable(usize),
    Anonymous,
    Term(Vec<usize>),
}

/// What stands up to a call, and the call. The head stands before the first one.
struct Chunk {
    /// The variable of each test.
    tests: Vec<usize>,
    call: Vec<Argument>,
}

struct Clause {
    head: Vec<Argument>,
    chunks: Vec<Chunk>,
}

impl Clause {
    fn drawn(random: &mut Random) -> Self {
        let names = random.between(1, VARIABLES);
        let head = drawn_arguments(random, names);
        let calls = random.between(1, CALLS);
        let chunks = (0..calls).map(|_| drawn_chunk(random, names)).collect();
        Clause { head, chunks }
    }

    /// The variables in the order in which they are met, which is how the compiler numbers them.
    fn variables(&self) -> Vec<Variable> {
        let mut variables = Vec::new();
        meet_arguments(&mut variables, Context::Head, &self.head);
        for (number, chunk) in self.chunks.iter().enumerate() {
            for name in &chunk.tests {
                meet(&mut variables, Context::Mid(number), *name, Some(1));
            }
            meet_arguments(&mut variables, Context::Last(number), &chunk.call);
        }
        variables
    }
}

fn drawn_chunk(random: &mut Random, names: usize) -> Chunk {
    let tests = random.weighted(&TESTS);
    Chunk {
        tests: drawn_names(random, names, tests),
        call: drawn_arguments(random, names),
    }
}

fn drawn_arguments(random: &mut Random, names: usize) -> Vec<Argument> {
    let count = random.between(0, ARGUMENTS);
    (0..count).map(|_| drawn_argument(random, names)).collect()
}

fn drawn_argument(random: &mut Random, names: usize) -> Argument {
    match random.below(7) {
        0 => Argument::Anonymous,
        1 => {
            let subterms = random.between(0, SUBTERMS);
            Argument::Term(drawn_names(random, names, subterms))
        }
        _ => Argument::Variable(random.below(names)),
    }
}

fn drawn_names(random: &mut Random, names: usize, count: usize) -> Vec<usize> {
    (0..count).map(|_| random.below(names)).collect()
}

struct Variable {
    name: usize,
    /// The context of the first occurrence.
    context: Context,
    chunks: BTreeSet<usize>,
    occurrences: usize,
    uses: Vec<String>,
}

impl Variable {
    fn is_permanent(&self) -> bool {
        self.chunks.len() > 1
    }

    fn record(&self) -> String {
        let occurrences = self.occurrences;
        if self.is_permanent() {
            format!("perm {occurrences}")
        } else {
            format!("temp {} {occurrences} {}", self.context, uses(&self.uses))
        }
    }
}

fn number_of(variables: &[Variable], name: usize) -> Option<usize> {
    variables.iter().position(|variable| variable.name == name)
}

/// Counts an occurrence, which is deep if it has no argument's number.
fn meet(variables: &mut Vec<Variable>, context: Context, name: usize, argument: Option<usize>) {
    let number = number_of(variables, name).unwrap_or_else(|| {
        variables.push(Variable {
            name,
            context,
            chunks: BTreeSet::new(),
            occurrences: 0,
            uses: Vec::new(),
        });
        variables.len() - 1
    });
    let variable = &mut variables[number];
    variable.chunks.insert(context.chunk());
    variable.occurrences += 1;
    variable
        .uses
        .extend(argument.map(|argument| format!("{context}:{argument}")));
}

fn meet_arguments(variables: &mut Vec<Variable>, context: Context, arguments: &[Argument]) {
    for (before, argument) in arguments.iter().enumerate() {
        match argument {
            Argument::Variable(name) => meet(variables, context, *name, Some(before + 1)),
            Argument::Anonymous => {}
            Argument::Term(names) => {
                for name in names {
                    meet(variables, context, *name, None);
                }
            }
        }
    }
}

struct Writer {
    sheet: Sheet,
    variables: Vec<Variable>,
    /// The names of the variables that have their places.
    placed: BTreeSet<usize>,
}

impl Writer {
    fn new(variables: Vec<Variable>) -> Self {
        let mut sheet = Sheet::default();
        for variable in &variables {
            sheet.line(variable.record());
        }
        sheet.line("sets");
        Writer {
            sheet,
            variables,
            placed: BTreeSet::new(),
        }
    }

    fn number(&self, name: usize) -> usize {
        number_of(&self.variables, name).expect("every name was met")
    }

    fn write_head(&mut self, arguments: &[Argument]) {
        let fields: Vec<String> = arguments
            .iter()
            .map(|argument| match argument {
                Argument::Variable(name) => self.number(*name).to_string(),
                _ => "-".to_string(),
            })
            .collect();
        self.sheet.line_with_list("head", fields);
        for (before, argument) in arguments.iter().enumerate() {
            match argument {
                Argument::Variable(name) => self.mark('f', 's', Context::Head, *name),
                Argument::Anonymous => self.sheet.line("next"),
                Argument::Term(names) => {
                    self.sheet.line("nonvar f s h 0");
                    if !names.is_empty() {
                        self.sheet.line(format_args!("give {}", before + 1));
                    }
                    self.mark_subterms('f', Context::Head, names);
                }
            }
        }
        self.sheet.line("clearfree");
    }

    /// A variable that has its place is tested there; a slot's is counted.
    fn write_test(&mut self, context: Context, name: usize) {
        let number = self.number(name);
        self.sheet.line("args 1");
        if !self.placed.contains(&name) {
            self.mark('q', 's', context, name);
        } else if self.variables[number].is_permanent() {
            self.sheet.line(format_args!("incr {number}"));
        }
    }

    fn write_call(&mut self, context: Context, arguments: &[Argument], is_last: bool) {
        self.sheet.line(format_args!("tail {}", u8::from(is_last)));
        self.sheet.line(format_args!("args {}", arguments.len()));
        for argument in arguments {
            match argument {
                Argument::Variable(name) => self.mark('q', 's', context, *name),
                Argument::Anonymous => self.sheet.line(format_args!("anon q s {context}")),
                Argument::Term(names) => {
                    self.sheet.line(format_args!("nonvar q s {context} 0"));
                    self.mark_subterms('q', context, names);
                }
            }
        }
        self.sheet.line("tail 0");
        self.sheet.line("contents");
    }

    /// A variable that stands nowhere else needs no place.
    fn mark_subterms(&mut self, target: char, context: Context, names: &[usize]) {
        for name in names {
            if self.variables[self.number(*name)].occurrences > 1 {
                self.mark(target, 'd', context, *name);
            }
        }
    }

    fn mark(&mut self, target: char, level: char, context: Context, name: usize) {
        let number = self.number(name);
        self.sheet
            .line(format_args!("var {target} {level} {context} {number}"));
        self.placed.insert(name);
    }
}
