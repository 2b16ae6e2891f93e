//! Sheets as a compiler would make them: a head, goals in chunks, branches, cuts, a tail.

use crate::text::{Sheet, uses};
use judging::random::Random;
use oracle::limits::USES;
use std::collections::BTreeSet;

/// How deep branches stand in one another.
const NESTING: usize = 4;

/// The branch around everything.
const WHOLE: (usize, usize) = (0, 1 << 31);

pub fn clause(random: &mut Random) -> Sheet {
    let mut writer = Writer::new(random.part());
    writer.write_head();
    writer.write_body();
    writer.finish()
}

struct Variable {
    permanent: bool,
    /// The chunk that a temporary belongs to; the head belongs to chunk 0.
    chunk: usize,
    occurrences: usize,
    contexts: Vec<String>,
    uses: Vec<String>,
}

struct Branch {
    start: usize,
    span: usize,
    /// The permanent variables marked inside.
    hits: BTreeSet<usize>,
}

/// The events come first, so that the records can tell what the events do.
struct Writer {
    random: Random,
    events: Sheet,
    variables: Vec<Variable>,
    branches: Vec<Branch>,
    chunk: usize,
    argument: usize,
}

impl Writer {
    fn new(mut random: Random) -> Self {
        let count = random.between(1, 8);
        let variables = (0..count).map(|_| fresh_variable(&mut random)).collect();
        Writer {
            random,
            events: Sheet::default(),
            variables,
            branches: Vec::new(),
            chunk: 0,
            argument: 1,
        }
    }

    fn write_head(&mut self) {
        let arity = self.random.below(7);
        let arguments: Vec<_> = (0..arity).map(|_| self.argument()).collect();
        let fields = arguments.iter().map(|argument| match argument {
            Some(variable) => variable.to_string(),
            None => "-".to_string(),
        });
        self.events.line_with_list("head", fields);
        self.argument = 1;
        for argument in arguments {
            self.write_argument('f', "h", argument);
        }
        self.events.line("clearfree");
    }

    fn write_body(&mut self) {
        for _ in 0..self.random.below(8) {
            self.write_step();
        }
        self.write_call();
        if self.random.one_in(4) {
            self.events.line("reset");
        }
    }

    fn write_step(&mut self) {
        match self.random.below(10) {
            0..=2 => self.write_goal('m'),
            3..=5 => self.write_call(),
            6 => self.write_cut(),
            7 => self.write_free(),
            _ if self.branches.len() < NESTING => {
                let depth = self.open_branch();
                self.close_branches(depth);
            }
            _ => {}
        }
    }

    /// A goal in the middle of a chunk may be a unification, made as a fact is.
    fn write_goal(&mut self, kind: char) {
        let target = match kind {
            'm' => self.random.pick(&['f', 'q']),
            _ => 'q',
        };
        let context = format!("{kind}{}", self.chunk);
        let arity = self.random.below(6);
        self.events.line(format_args!("args {arity}"));
        self.argument = 1;
        for _ in 0..arity {
            let argument = self.argument();
            self.write_argument(target, &context, argument);
        }
    }

    /// A goal that ends its chunk, and perhaps its arm or the whole clause.
    fn write_call(&mut self) {
        let in_tail_position = !self.random.one_in(3);
        if in_tail_position {
            self.events.line("tail 1");
        }
        self.write_goal('l');
        if in_tail_position {
            self.events.line("tail 0");
        }
        self.events.line("contents");
        self.chunk += 1;
    }

    /// A cut's variable is mostly a slot, and is often given back after the cut.
    fn write_cut(&mut self) {
        if let Some(variable) = self.visible_variable() {
            let chunk = self.chunk;
            self.events.line(format_args!("cut {variable} {chunk}"));
            if self.random.one_in(2) {
                self.events.line(format_args!("free {chunk} {variable}"));
            }
        }
    }

    fn write_free(&mut self) {
        if let Some(variable) = self.visible_variable() {
            let chunk = self.chunk;
            self.events.line(format_args!("free {chunk} {variable}"));
        }
    }

    /// Opens a branch and fills its arms; the last arm may end in a branch of its own.
    /// Answers how many branches are left open.
    fn open_branch(&mut self) -> usize {
        let arms = self.random.between(1, 3);
        let (start, span) = self.inner_branch();
        self.events.line(format_args!("open {start} {span} {arms}"));
        self.branches.push(Branch {
            start,
            span,
            hits: BTreeSet::new(),
        });
        let chunk = self.chunk;
        for arm in 0..arms {
            if arm > 0 {
                self.chunk = chunk;
                self.next_arm();
            }
            self.events.line("take");
            for _ in 0..self.random.below(3) {
                self.write_step();
            }
        }
        if self.branches.len() < NESTING && self.random.one_in(4) {
            1 + self.open_branch()
        } else {
            1
        }
    }

    fn next_arm(&mut self) {
        if let Some(branch) = self.branches.last_mut() {
            branch.start += branch.span;
            let Branch { start, span, .. } = branch;
            self.events.line(format_args!("arm {start} {span}"));
        }
    }

    /// Mostly a part of the branch around it, and now and then any branch at all.
    fn inner_branch(&mut self) -> (usize, usize) {
        let (start, span) = match self.branches.last() {
            Some(branch) => (branch.start, branch.span),
            None => WHOLE,
        };
        if self.random.one_in(4) {
            (self.random.below(20), self.random.below(20))
        } else {
            (start + span / 2, span / 4)
        }
    }

    fn close_branches(&mut self, depth: usize) {
        let closed = self.branches.split_off(self.branches.len() - depth);
        let hits: BTreeSet<usize> = closed.into_iter().flat_map(|branch| branch.hits).collect();
        self.events
            .line_with_list(format_args!("close {depth}"), &hits);
        if let Some(branch) = self.branches.last_mut() {
            branch.hits.extend(hits);
        }
    }

    /// What stands at an argument: a variable, or something else.
    fn argument(&mut self) -> Option<usize> {
        if self.random.one_in(3) {
            None
        } else {
            self.visible_variable()
        }
    }

    fn write_argument(&mut self, target: char, context: &str, argument: Option<usize>) {
        match argument {
            Some(variable) => self.mark(target, 's', context, variable),
            None => self.write_term(target, context),
        }
        self.argument += 1;
    }

    fn write_term(&mut self, target: char, context: &str) {
        match self.random.below(6) {
            0 => self.events.line("next"),
            1 => self.events.line(format_args!("anon {target} s {context}")),
            _ => {
                self.events
                    .line(format_args!("nonvar {target} s {context} 0"));
                self.write_subterms(target, context);
            }
        }
    }

    fn write_subterms(&mut self, target: char, context: &str) {
        for _ in 0..self.random.below(4) {
            match (self.random.below(8), self.visible_variable()) {
                (0, _) => self.events.line(format_args!("anon {target} d {context}")),
                (1, _) => self.write_inner_term(target, context),
                (_, Some(variable)) => self.mark(target, 'd', context, variable),
                _ => {}
            }
        }
    }

    /// A term inside a term holds a register for a while and then gives it back.
    fn write_inner_term(&mut self, target: char, context: &str) {
        let register = self.random.between(1, 9);
        let cell = self.random.pick(&[0, 0, 0, register]);
        self.events
            .line(format_args!("nonvar {target} d {context} {cell}"));
        if self.random.one_in(2) {
            self.events.line(format_args!("give {register}"));
        }
    }

    fn visible_variable(&mut self) -> Option<usize> {
        let chunk = self.chunk;
        let visible: Vec<usize> = (0..self.variables.len())
            .filter(|v| self.variables[*v].permanent || self.variables[*v].chunk == chunk)
            .collect();
        self.random.pick_any(&visible)
    }

    fn mark(&mut self, target: char, level: char, context: &str, variable: usize) {
        self.events
            .line(format_args!("var {target} {level} {context} {variable}"));
        let marked = &mut self.variables[variable];
        marked.occurrences += 1;
        marked.contexts.push(context.to_string());
        if level == 's' && !context.starts_with('m') {
            marked.uses.push(format!("{context}:{}", self.argument));
        }
        if marked.permanent
            && let Some(branch) = self.branches.last_mut()
        {
            branch.hits.insert(variable);
        }
        match self.random.below(16) {
            0 => self.events.line(format_args!("safe {variable}")),
            1 => {
                marked.occurrences += 1;
                self.events.line(format_args!("incr {variable}"));
            }
            _ => {}
        }
    }

    fn finish(mut self) -> Sheet {
        let mut sheet = Sheet::default();
        for variable in &self.variables {
            sheet.line(record(&mut self.random, variable));
        }
        if !self.random.one_in(5) {
            sheet.line("sets");
        }
        sheet.append(self.events);
        sheet
    }
}

fn fresh_variable(random: &mut Random) -> Variable {
    Variable {
        permanent: random.one_in(2),
        chunk: random.weighted(&[(4, 0), (2, 1), (1, 2)]),
        occurrences: 0,
        contexts: Vec::new(),
        uses: Vec::new(),
    }
}

/// A record that mostly tells the truth. One occurrence too few makes the last mark free
/// its variable.
fn record(random: &mut Random, variable: &Variable) -> String {
    let occurrences = match random.below(8) {
        0 => variable.occurrences.saturating_sub(1),
        1 => variable.occurrences + 1,
        _ => variable.occurrences,
    };
    if variable.permanent {
        return format!("perm {occurrences}");
    }
    let contexts: Vec<&String> = variable.contexts.iter().collect();
    let context = match random.pick_any(&contexts) {
        Some(context) => context.clone(),
        None => format!("l{}", variable.chunk),
    };
    let kept = variable.uses.len().min(USES);
    let uses = uses(&variable.uses[..kept]);
    format!("temp {context} {occurrences} {uses}")
}
