//! Events in any order, with any fields that keep to the sizes.
//!
//! A careful sheet heeds what would make the original stop; a reckless one does not.

use crate::fields::{context, level, target};
use crate::text::{Sheet, uses};
use judging::random::Random;
use oracle::limits::{ARGUMENT_COUNTER, ARGUMENTS, OPEN_BRANCHES, REGISTERS};

const LAST_CHUNK: usize = 3;

pub fn wild(random: &mut Random) -> Sheet {
    let mood = random.pick(&MOODS);
    let mut writer = Writer::new(random.part());
    writer.write_records(mood);
    if writer.random.one_in(2) {
        writer.write_sets();
    }
    for _ in 0..writer.random.between(3, 80) {
        let write_event = writer.random.weighted(mood.events);
        write_event(&mut writer);
    }
    writer.sheet
}

type WriteEvent = fn(&mut Writer);

/// Which records and events a sheet is made of.
#[derive(Clone, Copy)]
struct Mood {
    /// Out of four records, so many are permanent.
    permanents: usize,
    most_occurrences: usize,
    events: &'static [(usize, WriteEvent)],
}

const MOODS: [Mood; 3] = [
    Mood {
        permanents: 2,
        most_occurrences: 7,
        events: &EVERYTHING,
    },
    Mood {
        permanents: 4,
        most_occurrences: 30,
        events: &SLOTS_AND_BRANCHES,
    },
    Mood {
        permanents: 1,
        most_occurrences: 3,
        events: &REGISTERS_AND_ARGUMENTS,
    },
];

const EVERYTHING: [(usize, WriteEvent); 20] = [
    (1, Writer::write_sets),
    (2, Writer::write_head),
    (4, Writer::write_args),
    (24, Writer::write_var),
    (5, Writer::write_anon),
    (6, Writer::write_nonvar),
    (3, Writer::write_cut),
    (2, Writer::write_incr),
    (4, Writer::write_free),
    (3, Writer::write_safe),
    (4, Writer::write_give),
    (2, Writer::write_tail),
    (2, Writer::write_next),
    (3, Writer::write_open),
    (3, Writer::write_arm),
    (3, Writer::write_take),
    (3, Writer::write_close),
    (2, Writer::write_reset),
    (2, Writer::write_contents),
    (1, Writer::write_clearfree),
];

const SLOTS_AND_BRANCHES: [(usize, WriteEvent); 10] = [
    (4, Writer::write_args),
    (24, Writer::write_var),
    (2, Writer::write_cut),
    (6, Writer::write_free),
    (6, Writer::write_tail),
    (3, Writer::write_open),
    (3, Writer::write_arm),
    (4, Writer::write_take),
    (4, Writer::write_close),
    (2, Writer::write_reset),
];

const REGISTERS_AND_ARGUMENTS: [(usize, WriteEvent); 9] = [
    (1, Writer::write_sets),
    (2, Writer::write_head),
    (3, Writer::write_args),
    (20, Writer::write_var),
    (2, Writer::write_anon),
    (3, Writer::write_nonvar),
    (2, Writer::write_crowd),
    (2, Writer::write_give),
    (1, Writer::write_contents),
];

struct Variable {
    permanent: bool,
    occurrences: usize,
    running_count: usize,
    /// Whether a permanent variable is surely not Pending.
    done: bool,
}

struct Branch {
    arms: usize,
    index: usize,
}

struct Writer {
    random: Random,
    sheet: Sheet,
    variables: Vec<Variable>,
    branches: Vec<Branch>,
    argument_counter: usize,
    reckless: bool,
}

impl Writer {
    fn new(mut random: Random) -> Self {
        let reckless = random.one_in(5);
        Writer {
            random,
            sheet: Sheet::default(),
            variables: Vec::new(),
            branches: Vec::new(),
            argument_counter: 1,
            reckless,
        }
    }

    fn write_records(&mut self, mood: Mood) {
        for _ in 0..self.random.between(1, 8) {
            let permanent = self.random.below(4) < mood.permanents;
            let occurrences = self.random.between(0, mood.most_occurrences);
            if permanent {
                self.sheet.line(format_args!("perm {occurrences}"));
            } else {
                let context = context(&mut self.random, LAST_CHUNK);
                let uses = self.uses();
                self.sheet
                    .line(format_args!("temp {context} {occurrences} {uses}"));
            }
            self.variables.push(Variable {
                permanent,
                occurrences,
                running_count: 0,
                done: false,
            });
        }
    }

    fn uses(&mut self) -> String {
        let count = self.random.below(6);
        let pair = |_| {
            let context = context(&mut self.random, LAST_CHUNK);
            format!("{context}:{}", self.random.between(1, 6))
        };
        let pairs: Vec<String> = (0..count).map(pair).collect();
        uses(&pairs)
    }

    fn variable(&mut self) -> usize {
        self.random.below(self.variables.len())
    }

    fn small_or_any_count(&mut self) -> usize {
        match self.random.below(12) {
            0 => self.random.between(0, ARGUMENTS),
            _ => self.random.below(7),
        }
    }

    fn write_sets(&mut self) {
        self.sheet.line("sets");
    }

    fn write_head(&mut self) {
        let count = self.small_or_any_count();
        let field = |_| match self.random.below(4) {
            0 => "-".to_string(),
            _ => self.random.below(self.variables.len()).to_string(),
        };
        self.sheet.line_with_list("head", (0..count).map(field));
        self.argument_counter = 1;
    }

    fn write_args(&mut self) {
        let count = self.small_or_any_count();
        self.sheet.line(format_args!("args {count}"));
        self.argument_counter = 1;
    }

    /// Makes room for one more argument when there is none.
    fn take_argument(&mut self) {
        if self.argument_counter == ARGUMENT_COUNTER && !self.reckless {
            self.write_args();
        }
        self.argument_counter += 1;
    }

    fn write_var(&mut self) {
        let level = level(&mut self.random);
        if level != 'd' {
            self.take_argument();
        }
        let target = target(&mut self.random);
        let context = context(&mut self.random, LAST_CHUNK);
        let variable = self.variable();
        self.sheet
            .line(format_args!("var {target} {level} {context} {variable}"));
        let marked = &mut self.variables[variable];
        marked.done = marked.running_count < marked.occurrences;
        marked.running_count += usize::from(marked.done);
    }

    fn write_anon(&mut self) {
        let level = level(&mut self.random);
        if level != 'd' {
            self.take_argument();
        }
        let target = target(&mut self.random);
        let context = context(&mut self.random, LAST_CHUNK);
        self.sheet
            .line(format_args!("anon {target} {level} {context}"));
    }

    fn write_nonvar(&mut self) {
        let level = level(&mut self.random);
        if level == 's' {
            self.take_argument();
        }
        let target = target(&mut self.random);
        let context = context(&mut self.random, LAST_CHUNK);
        let cell = match self.random.below(4) {
            0 => self.random.between(1, 9),
            1 if self.reckless => self.random.between(0, REGISTERS),
            _ => 0,
        };
        self.sheet
            .line(format_args!("nonvar {target} {level} {context} {cell}"));
    }

    /// Takes many low registers, so that the search has to heed the sets of a variable.
    fn write_crowd(&mut self) {
        for register in 1..=8 {
            if self.random.one_in(2) {
                self.sheet.line(format_args!("nonvar q d m0 {register}"));
            }
        }
    }

    fn write_cut(&mut self) {
        let variable = self.variable();
        let chunk = self.random.between(0, LAST_CHUNK);
        self.sheet.line(format_args!("cut {variable} {chunk}"));
    }

    fn write_incr(&mut self) {
        let variable = self.variable();
        self.sheet.line(format_args!("incr {variable}"));
        self.variables[variable].running_count += 1;
    }

    fn write_free(&mut self) {
        let variable = self.variable();
        let chunk = self.random.between(0, LAST_CHUNK);
        self.sheet.line(format_args!("free {chunk} {variable}"));
        self.variables[variable].done = false;
    }

    fn write_safe(&mut self) {
        let variable = self.variable();
        let Variable {
            permanent, done, ..
        } = self.variables[variable];
        if !permanent || done || self.reckless {
            self.sheet.line(format_args!("safe {variable}"));
        }
    }

    fn write_give(&mut self) {
        let register = match self.random.below(6) {
            0 => self.random.between(1, REGISTERS),
            _ => self.random.between(1, 8),
        };
        self.sheet.line(format_args!("give {register}"));
    }

    fn write_tail(&mut self) {
        let flag = self.random.pick(&[0, 1, 1]);
        self.sheet.line(format_args!("tail {flag}"));
    }

    fn write_next(&mut self) {
        self.take_argument();
        self.sheet.line("next");
    }

    /// Starts and spans are small, so that branches often hold one another.
    fn interval(&mut self) -> (usize, usize) {
        (self.random.below(8), self.random.below(6))
    }

    fn write_open(&mut self) {
        let (start, span) = self.interval();
        let fewest_arms = usize::from(!self.reckless);
        let arms = self.random.between(fewest_arms, 4);
        if self.branches.len() < OPEN_BRANCHES || self.reckless {
            self.sheet.line(format_args!("open {start} {span} {arms}"));
            self.branches.push(Branch { arms, index: 0 });
        }
    }

    fn write_arm(&mut self) {
        let (start, span) = self.interval();
        let may_stop = self.reckless;
        if let Some(branch) = self.branches.last_mut()
            && (branch.index + 1 < branch.arms || may_stop)
        {
            branch.index += 1;
            self.sheet.line(format_args!("arm {start} {span}"));
        }
    }

    fn write_take(&mut self) {
        if !self.branches.is_empty() || self.reckless {
            self.sheet.line("take");
            for variable in &mut self.variables {
                variable.done = false;
            }
        }
    }

    fn write_close(&mut self) {
        let open = self.branches.len();
        let depth = self.random.between(0, open + usize::from(self.reckless));
        self.branches.truncate(open.saturating_sub(depth));
        let mut named = Vec::new();
        for _ in 0..self.random.below(4) {
            let variable = self.variable();
            let closed = &mut self.variables[variable];
            if closed.permanent || (self.reckless && self.random.one_in(3)) {
                closed.done |= closed.running_count < closed.occurrences;
                named.push(variable);
            }
        }
        self.sheet
            .line_with_list(format_args!("close {depth}"), named);
    }

    fn write_reset(&mut self) {
        self.sheet.line("reset");
    }

    fn write_contents(&mut self) {
        self.sheet.line("contents");
    }

    fn write_clearfree(&mut self) {
        self.sheet.line("clearfree");
    }
}
