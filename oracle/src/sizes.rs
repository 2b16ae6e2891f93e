//! Whether a well-formed line keeps to the sizes: refusal 3, and 7 for lists too long.

use crate::forms::{GenContext, Level};
use crate::limits::{ARGUMENTS, CELLS, CHUNKS, CLOSE_VARIABLES, COUNTS, REGISTERS, USES};
use crate::sheet::{Branching, Event, Mark, Record, Subject};
use judging::refusal::Refusal;

impl Record {
    /// Tests the record's numbers against their sizes, then the length of its use list.
    pub(crate) fn test_sizes(&self) -> Result<(), Refusal> {
        match self {
            Record::Temporary {
                context,
                occurrences,
                uses,
            } => {
                let uses_fit = uses.iter().all(use_fits);
                in_size(chunk_fits(context) && *occurrences <= COUNTS && uses_fit)?;
                list_fits(uses.len(), USES)
            }
            Record::Permanent { occurrences } => in_size(*occurrences <= COUNTS),
        }
    }
}

impl Event {
    /// Tests the event's numbers against their sizes and the variables there are, then the
    /// length of its list.
    pub(crate) fn test_sizes(&self, variables: usize) -> Result<(), Refusal> {
        in_size(self.is_in_size(variables))?;
        match self {
            Event::Head(arguments) => list_fits(arguments.len(), ARGUMENTS),
            Event::Branching(Branching::Close { variables, .. }) => {
                list_fits(variables.len(), CLOSE_VARIABLES)
            }
            _ => Ok(()),
        }
    }

    fn is_in_size(&self, variables: usize) -> bool {
        match *self {
            Event::Head(ref arguments) => arguments.iter().flatten().all(|v| *v < variables),
            Event::Args(count) => count <= ARGUMENTS,
            Event::Mark(ref mark) => mark.is_in_size(variables),
            Event::Cut { variable, chunk } | Event::Free { chunk, variable } => {
                variable < variables && chunk <= CHUNKS
            }
            Event::Increment(variable) | Event::Safe(variable) => variable < variables,
            Event::Give(register) => register_fits(register),
            Event::Tail(flag) => flag <= 1,
            Event::Branching(ref branching) => branching.is_in_size(variables),
            Event::Sets | Event::Next | Event::Reset | Event::Contents | Event::ClearFree => true,
        }
    }

    /// Whether the event takes the next argument's number, and so needs that there is one.
    pub(crate) fn takes_argument(&self) -> bool {
        match self {
            Event::Next => true,
            Event::Mark(mark) => match mark.subject {
                Subject::Variable(_) | Subject::Anonymous => mark.level != Level::Deep,
                Subject::NonVariable(_) => mark.level == Level::Shallow,
            },
            _ => false,
        }
    }
}

impl Mark {
    fn is_in_size(&self, variables: usize) -> bool {
        let subject_fits = match self.subject {
            Subject::Variable(variable) => variable < variables,
            Subject::Anonymous => true,
            Subject::NonVariable(cell) => cell <= CELLS,
        };
        chunk_fits(&self.context) && subject_fits
    }
}

impl Branching {
    /// Starts, spans and depths take any number.
    fn is_in_size(&self, variables: usize) -> bool {
        match self {
            Branching::Open { arms, .. } => *arms <= COUNTS,
            Branching::Close {
                variables: closed, ..
            } => closed.iter().all(|v| *v < variables),
            Branching::Arm { .. } | Branching::Take => true,
        }
    }
}

fn chunk_fits(context: &GenContext) -> bool {
    context.chunk_num() <= CHUNKS
}

fn use_fits((context, register): &(GenContext, usize)) -> bool {
    chunk_fits(context) && register_fits(*register)
}

fn register_fits(register: usize) -> bool {
    (1..=REGISTERS).contains(&register)
}

fn in_size(holds: bool) -> Result<(), Refusal> {
    holds.then_some(()).ok_or(Refusal::Size)
}

fn list_fits(entries: usize, limit: usize) -> Result<(), Refusal> {
    (entries <= limit).then_some(()).ok_or(Refusal::Full)
}
