//! Answers check sheets from standard input.

use decider::answer::reply;
use decider::limits::SHEET_BYTES;
use decider::tally::{Agreement, Answers};
use judging::frames::read_frame;
use judging::program;
use std::io::{self, BufRead, BufWriter, Write};
use std::process::ExitCode;

const USAGE: &str = "decider [--room N] [--batch | --count | --agree]";

enum Task {
    One,
    Batch,
    Count,
    Agree,
}

struct Options {
    room: usize,
    task: Task,
}

fn read_options(words: &[&str]) -> Option<Options> {
    let (room, rest) = match words {
        ["--room", room, rest @ ..] => (room.parse().ok()?, rest),
        rest => (SHEET_BYTES, rest),
    };
    let task = match rest {
        [] => Task::One,
        ["--batch"] => Task::Batch,
        ["--count"] => Task::Count,
        ["--agree"] => Task::Agree,
        _ => return None,
    };
    Some(Options { room, task })
}

fn answer_one(room: usize, input: &mut impl BufRead, output: &mut impl Write) -> io::Result<()> {
    let mut sheet = Vec::new();
    input.read_to_end(&mut sheet)?;
    output.write_all(&reply(&sheet, room))
}

/// Each answer is one line.
fn answer_batch(room: usize, input: &mut impl BufRead, output: &mut impl Write) -> io::Result<()> {
    while let Some(sheet) = read_frame(input)? {
        output.write_all(&reply(&sheet, room))?;
    }
    Ok(())
}

fn count_batch(room: usize, input: &mut impl BufRead, output: &mut impl Write) -> io::Result<()> {
    let mut answers = Answers::default();
    while let Some(sheet) = read_frame(input)? {
        answers.count(&sheet, room);
    }
    write!(output, "{answers}")
}

/// Shows the first sheet on which the ways to decide it differ. Answers how many do.
fn agree_batch(input: &mut impl BufRead, output: &mut impl Write) -> io::Result<usize> {
    let mut agreement = Agreement::default();
    while let Some(sheet) = read_frame(input)? {
        if !agreement.count(&sheet) && agreement.differ() == 1 {
            writeln!(output, "the ways to decide differ:")?;
            output.write_all(&sheet)?;
        }
    }
    write!(output, "{agreement}")?;
    Ok(agreement.differ())
}

fn run(options: &Options) -> io::Result<ExitCode> {
    let mut input = io::stdin().lock();
    let mut output = BufWriter::new(io::stdout().lock());
    let mut differ = 0;
    match options.task {
        Task::One => answer_one(options.room, &mut input, &mut output)?,
        Task::Batch => answer_batch(options.room, &mut input, &mut output)?,
        Task::Count => count_batch(options.room, &mut input, &mut output)?,
        Task::Agree => differ = agree_batch(&mut input, &mut output)?,
    }
    output.flush()?;
    Ok(ExitCode::from(u8::from(differ > 0)))
}

fn main() -> ExitCode {
    program::run(USAGE, read_options, run)
}
