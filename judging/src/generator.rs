//! The program of a generator: writes sheets of several kinds, the same ones for the same seed, as frames.

use crate::frames::write_frame;
use crate::program;
use crate::random::Random;
use std::io::{self, BufWriter, Write};
use std::process::ExitCode;

pub type WriteSheet = fn(&mut Random) -> Vec<u8>;

/// The kinds of sheet, each as often as its weight says.
pub type Kinds = Vec<(usize, WriteSheet)>;

struct Options {
    seed: u64,
    count: usize,
    kinds: Kinds,
}

/// Runs a generator. What stands behind seed and count names the kinds, in words of its own.
pub fn run(usage: &str, named_kinds: impl FnOnce(&[&str]) -> Option<Kinds>) -> ExitCode {
    program::run(
        usage,
        |words| read_options(words, named_kinds),
        write_sheets,
    )
}

fn read_options(
    words: &[&str],
    named_kinds: impl FnOnce(&[&str]) -> Option<Kinds>,
) -> Option<Options> {
    match words {
        ["--seed", seed, "--count", count, further @ ..] => Some(Options {
            seed: seed.parse().ok()?,
            count: count.parse().ok()?,
            kinds: named_kinds(further)?,
        }),
        _ => None,
    }
}

fn write_sheets(options: &Options) -> io::Result<ExitCode> {
    let mut random = Random::new(options.seed);
    let mut output = BufWriter::new(io::stdout().lock());
    for _ in 0..options.count {
        let write_sheet = random.weighted(&options.kinds);
        write_frame(&mut output, &write_sheet(&mut random))?;
    }
    output.flush()?;
    Ok(ExitCode::SUCCESS)
}
