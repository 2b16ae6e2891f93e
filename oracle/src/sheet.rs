//! One line of an event sheet: what it says, and whether its form is right.
//!
//! Only the form is looked at here. A reader that answers `None` has met refusal 1; numbers
//! come back as they stand and may still be outside their size.

use crate::forms::{GenContext, Level};

pub(crate) enum Line {
    Record(Record),
    Event(Event),
}

pub(crate) enum Record {
    Temporary {
        context: GenContext,
        occurrences: usize,
        uses: Vec<(GenContext, usize)>,
    },
    Permanent {
        occurrences: usize,
    },
}

pub(crate) enum Event {
    Sets,
    /// For each argument the variable it is, if it is one.
    Head(Vec<Option<usize>>),
    Args(usize),
    Mark(Mark),
    Cut {
        variable: usize,
        chunk: usize,
    },
    Increment(usize),
    Free {
        chunk: usize,
        variable: usize,
    },
    Safe(usize),
    Give(usize),
    Tail(usize),
    Next,
    Branching(Branching),
    Reset,
    Contents,
    ClearFree,
}

/// What is done to the stack of open branches.
pub(crate) enum Branching {
    Open {
        start: usize,
        span: usize,
        arms: usize,
    },
    Arm {
        start: usize,
        span: usize,
    },
    Take,
    Close {
        depth: usize,
        variables: Vec<usize>,
    },
}

/// `var`, `anon` and `nonvar` share their first three fields.
pub(crate) struct Mark {
    pub(crate) target: Target,
    pub(crate) level: Level,
    pub(crate) context: GenContext,
    pub(crate) subject: Subject,
}

pub(crate) enum Target {
    Fact,
    Query,
}

pub(crate) enum Subject {
    Variable(usize),
    Anonymous,
    /// With its cell: a register, or 0 for none yet.
    NonVariable(usize),
}

impl Mark {
    pub(crate) fn is_of_variable(&self) -> bool {
        matches!(self.subject, Subject::Variable(_))
    }
}

/// Reads a line without its LF.
pub(crate) fn read_line(line: &[u8]) -> Option<Line> {
    let fields: Vec<&str> = str::from_utf8(line).ok()?.split('\t').collect();
    match fields[..] {
        ["temp" | "perm", ..] => read_record(&fields).map(Line::Record),
        _ => read_event(&fields).map(Line::Event),
    }
}

fn read_record(fields: &[&str]) -> Option<Record> {
    match *fields {
        ["temp", context, occurrences, uses] => Some(Record::Temporary {
            context: read_context(context)?,
            occurrences: read_number(occurrences)?,
            uses: read_uses(uses)?,
        }),
        ["perm", occurrences] => Some(Record::Permanent {
            occurrences: read_number(occurrences)?,
        }),
        _ => None,
    }
}

fn read_event(fields: &[&str]) -> Option<Event> {
    let event = match *fields {
        ["var" | "anon" | "nonvar", ..] => Event::Mark(read_mark(fields)?),
        ["open" | "arm" | "take" | "close", ..] => Event::Branching(read_branching(fields)?),
        ["sets"] => Event::Sets,
        ["head", ref arguments @ ..] => Event::Head(read_all(arguments, read_argument)?),
        ["args", count] => Event::Args(read_number(count)?),
        ["cut", variable, chunk] => Event::Cut {
            variable: read_number(variable)?,
            chunk: read_number(chunk)?,
        },
        ["incr", variable] => Event::Increment(read_number(variable)?),
        ["free", chunk, variable] => Event::Free {
            chunk: read_number(chunk)?,
            variable: read_number(variable)?,
        },
        ["safe", variable] => Event::Safe(read_number(variable)?),
        ["give", register] => Event::Give(read_number(register)?),
        ["tail", flag] => Event::Tail(read_number(flag)?),
        ["next"] => Event::Next,
        ["reset"] => Event::Reset,
        ["contents"] => Event::Contents,
        ["clearfree"] => Event::ClearFree,
        _ => return None,
    };
    Some(event)
}

fn read_mark(fields: &[&str]) -> Option<Mark> {
    let [word, target, level, context, ref rest @ ..] = *fields else {
        return None;
    };
    let subject = match (word, rest) {
        ("var", [variable]) => Subject::Variable(read_number(variable)?),
        ("anon", []) => Subject::Anonymous,
        ("nonvar", [cell]) => Subject::NonVariable(read_number(cell)?),
        _ => return None,
    };
    Some(Mark {
        target: read_target(target)?,
        level: read_level(level)?,
        context: read_context(context)?,
        subject,
    })
}

fn read_branching(fields: &[&str]) -> Option<Branching> {
    match *fields {
        ["open", start, span, arms] => Some(Branching::Open {
            start: read_number(start)?,
            span: read_number(span)?,
            arms: read_number(arms)?,
        }),
        ["arm", start, span] => Some(Branching::Arm {
            start: read_number(start)?,
            span: read_number(span)?,
        }),
        ["take"] => Some(Branching::Take),
        ["close", depth, ref variables @ ..] => Some(Branching::Close {
            depth: read_number(depth)?,
            variables: read_all(variables, read_number)?,
        }),
        _ => None,
    }
}

fn read_all<Item>(fields: &[&str], read: fn(&str) -> Option<Item>) -> Option<Vec<Item>> {
    fields.iter().map(|field| read(field)).collect()
}

fn read_argument(field: &str) -> Option<Option<usize>> {
    match field {
        "-" => Some(None),
        variable => read_number(variable).map(Some),
    }
}

fn read_target(field: &str) -> Option<Target> {
    match field {
        "f" => Some(Target::Fact),
        "q" => Some(Target::Query),
        _ => None,
    }
}

fn read_level(field: &str) -> Option<Level> {
    match field {
        "r" => Some(Level::Root),
        "s" => Some(Level::Shallow),
        "d" => Some(Level::Deep),
        _ => None,
    }
}

fn read_context(field: &str) -> Option<GenContext> {
    match field.split_at_checked(1)? {
        ("h", "") => Some(GenContext::Head),
        ("m", chunk) => read_number(chunk).map(GenContext::Mid),
        ("l", chunk) => read_number(chunk).map(GenContext::Last),
        _ => None,
    }
}

fn read_uses(field: &str) -> Option<Vec<(GenContext, usize)>> {
    match field {
        "-" => Some(Vec::new()),
        pairs => pairs.split(',').map(read_use).collect(),
    }
}

fn read_use(pair: &str) -> Option<(GenContext, usize)> {
    let (context, register) = pair.split_once(':')?;
    Some((read_context(context)?, read_number(register)?))
}

/// A number above 4,294,967,295 has no right form, like one with a needless zero.
fn read_number(field: &str) -> Option<usize> {
    let digits = field.bytes().all(|byte| byte.is_ascii_digit());
    let needless_zero = field.len() > 1 && field.starts_with('0');
    if !digits || needless_zero {
        return None;
    }
    field.parse::<u32>().ok().map(|number| number as usize)
}
