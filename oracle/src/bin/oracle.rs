//! Answers event sheets, or bundles of clauses, from standard input as the original Rust decides them.

use judging::frames::{read_frame, write_frame};
use judging::program;
use oracle::bundle::judge_bundle;
use oracle::judge::{Refused, judge};
use oracle::limits::SHEET_BYTES;
use oracle::tally::Tally;
use std::io::{self, BufRead, BufWriter, Write};
use std::process::ExitCode;

const USAGE: &str = "oracle [--room N] [--state | --bundle] [--batch [--count]]";

struct Options {
    room: usize,
    state: bool,
    bundle: bool,
    batch: bool,
    count: bool,
}

fn read_options(words: &[&str]) -> Option<Options> {
    let mut options = Options {
        room: SHEET_BYTES,
        state: false,
        bundle: false,
        batch: false,
        count: false,
    };
    let mut words = words.iter();
    while let Some(word) = words.next() {
        match *word {
            "--room" => options.room = words.next()?.parse().ok()?,
            "--state" => options.state = true,
            "--bundle" => options.bundle = true,
            "--batch" => options.batch = true,
            "--count" => options.count = true,
            _ => return None,
        }
    }
    let counts_a_batch = options.batch || !options.count;
    let has_one_state = !(options.bundle && options.state);
    (counts_a_batch && has_one_state).then_some(options)
}

/// The answer to an event sheet or a bundle.
fn answer(sheet: &[u8], options: &Options) -> Result<String, Refused> {
    if options.bundle {
        return judge_bundle(sheet, options.room);
    }
    judge(sheet, options.room).map(|accepted| accepted.answer().to_string())
}

/// The answer to an event sheet, and the final state behind it.
fn answer_and_state(sheet: &[u8], options: &Options) -> Result<String, Refused> {
    let accepted = judge(sheet, options.room)?;
    Ok(accepted.answer().to_string() + &accepted.state())
}

fn response(sheet: &[u8], options: &Options) -> String {
    let answered = match options.state {
        true => answer_and_state(sheet, options),
        false => answer(sheet, options),
    };
    answered.unwrap_or_else(|refused| refused.answer())
}

fn answer_one(
    options: &Options,
    input: &mut impl BufRead,
    output: &mut impl Write,
) -> io::Result<()> {
    let mut sheet = Vec::new();
    input.read_to_end(&mut sheet)?;
    output.write_all(response(&sheet, options).as_bytes())
}

fn answer_batch(
    options: &Options,
    input: &mut impl BufRead,
    output: &mut impl Write,
) -> io::Result<()> {
    while let Some(sheet) = read_frame(input)? {
        write_frame(output, response(&sheet, options).as_bytes())?;
    }
    Ok(())
}

fn count_batch(
    options: &Options,
    input: &mut impl BufRead,
    output: &mut impl Write,
) -> io::Result<()> {
    let mut tally = Tally::default();
    while let Some(sheet) = read_frame(input)? {
        tally.count(&sheet, answer(&sheet, options));
    }
    write!(output, "{tally}")
}

fn run(options: &Options) -> io::Result<ExitCode> {
    let mut input = io::stdin().lock();
    let mut output = BufWriter::new(io::stdout().lock());
    match options {
        Options { count: true, .. } => count_batch(options, &mut input, &mut output)?,
        Options { batch: true, .. } => answer_batch(options, &mut input, &mut output)?,
        _ => answer_one(options, &mut input, &mut output)?,
    }
    output.flush()?;
    Ok(ExitCode::SUCCESS)
}

fn main() -> ExitCode {
    program::run(USAGE, read_options, run)
}
