//! An example of a host: answers a sheet from a file or from standard input.
//!
//!     example events|lines|check|bundle [FILE]
//!
//! `lines` answers an event sheet as `events` does, but gives it line by line, as a host does that has no sheet.
//! Prints the answer, or the line and the refusal in words; exit 0 with an answer, 1 with a refusal, 2 with neither. The
//! answer to a bundle is one even where a clause of it is refused.
use std::fs::File;
use std::io::{self, Read, Write};
use std::os::fd::{AsFd, BorrowedFd};
use std::process::exit;

#[allow(dead_code)] // a host needs not use all of it
mod fenomirask;

use fenomirask::{Clause, Refusal, Refused};

/// The bytes of a sheet, at most one more than a sheet may have: a longer one is refused by the library.
fn read(source: impl Read) -> io::Result<Vec<u8>> {
    let mut sheet = Vec::new();
    source
        .take(fenomirask::SHEET_BYTES as u64 + 1)
        .read_to_end(&mut sheet)?;
    Ok(sheet)
}

/// A standard stream as a file. Rust's own `Stdin` reads nothing where the stream is not open for reading, and its `Stdout`
/// says that all was written where it is not open for writing; a file says both. A stream that is closed before the start
/// is the null device by the time that `main` runs: then the sheet is an empty one.
fn file(stream: BorrowedFd) -> io::Result<File> {
    stream.try_clone_to_owned().map(File::from)
}

/// The answer to an event sheet, as that of `fenomirask::events`.
fn lines(sheet: &[u8], out: &mut [u8]) -> Result<usize, Refused> {
    if sheet.len() > fenomirask::SHEET_BYTES {
        // A clause may have any number of lines; a sheet has only so many bytes.
        return Err(Refused {
            line: 0,
            refusal: Refusal::Full,
        });
    }
    let (mut clause, mut written) = (Clause::new(), 0);
    for (at, line) in sheet.split_inclusive(|&byte| byte == b'\n').enumerate() {
        // The only line of a call is its line 1.
        written += clause
            .event(line, &mut out[written..])
            .map_err(|refused| Refused {
                line: refused.line * (at + 1),
                ..refused
            })?;
    }
    Ok(written + clause.end(&mut out[written..])?)
}

fn run(words: &[String]) -> io::Result<i32> {
    let answer = match words.first().map(String::as_str) {
        Some("events") if words.len() <= 2 => fenomirask::events,
        Some("lines") if words.len() <= 2 => lines,
        Some("check") if words.len() <= 2 => fenomirask::check,
        Some("bundle") if words.len() <= 2 => fenomirask::bundle,
        _ => {
            eprintln!("usage: example events|lines|check|bundle [FILE]");
            return Ok(2);
        }
    };
    let sheet = match words.get(1) {
        Some(path) => read(File::open(path)?)?,
        None => read(file(io::stdin().as_fd())?)?,
    };
    let (mut out, mut printed) = (vec![0; 1 << 20], file(io::stdout().as_fd())?);
    match answer(&sheet, &mut out) {
        Ok(written) => printed.write_all(&out[..written]).map(|()| 0),
        Err(refused) => writeln!(printed, "{refused}").map(|()| 1),
    }
}

fn main() {
    let words: Vec<String> = std::env::args().skip(1).collect();
    exit(run(&words).unwrap_or_else(|error| {
        eprintln!("example: {error}");
        2
    }));
}
