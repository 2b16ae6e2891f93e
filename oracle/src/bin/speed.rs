//! Answers the event sheets of a file again and again, and prints what hosts/speed.c prints of the library.

use judging::frames::read_frame;
use judging::program;
use oracle::judge::judge;
use oracle::plain;
use std::ffi::{c_int, c_long};
use std::fs::File;
use std::hint::black_box;
use std::io::{self, BufReader};
use std::process::ExitCode;

const USAGE: &str = "speed judge|plain ROUNDS FILE";

/// No answer is longer.
const ROOM: usize = 1 << 20;

type Answering = fn(&[u8], &mut String);

struct Options {
    answering: Answering,
    rounds: u64,
    file: String,
}

fn read_options(words: &[&str]) -> Option<Options> {
    let [kind, rounds, file] = *words else {
        return None;
    };
    let answering: Answering = match kind {
        "judge" => judged,
        "plain" => plain::answer,
        _ => return None,
    };
    Some(Options {
        answering,
        rounds: rounds.parse().ok()?,
        file: file.to_string(),
    })
}

fn judged(sheet: &[u8], answer: &mut String) {
    match judge(sheet, ROOM) {
        Ok(accepted) => answer.push_str(accepted.answer()),
        Err(refused) => answer.push_str(&refused.answer()),
    }
}

fn read_sheets(file: &str) -> io::Result<Vec<Vec<u8>>> {
    let mut input = BufReader::new(File::open(file)?);
    let mut sheets = Vec::new();
    while let Some(sheet) = read_frame(&mut input)? {
        sheets.push(sheet);
    }
    Ok(sheets)
}

#[repr(C)]
struct TimeSpec {
    seconds: c_long,
    nanoseconds: c_long,
}

unsafe extern "C" {
    /// Of the C library, which is linked in any case.
    fn clock_gettime(clock: c_int, time: *mut TimeSpec) -> c_int;
}

/// The processor time of this process, in nanoseconds.
fn processor_time() -> u64 {
    const CLOCK_PROCESS_CPUTIME_ID: c_int = 2;
    let mut time = TimeSpec {
        seconds: 0,
        nanoseconds: 0,
    };
    // Safety: the time is written to a place of its own, laid out as on every 64-bit Linux.
    let failed = unsafe { clock_gettime(CLOCK_PROCESS_CPUTIME_ID, &mut time) };
    assert_eq!(failed, 0, "a process has its clock");
    time.seconds as u64 * 1_000_000_000 + time.nanoseconds as u64
}

/// FNV-1a, 64 bits, carried on over further bytes.
fn checksum(sum: u64, bytes: &[u8]) -> u64 {
    bytes.iter().fold(sum, |sum, byte| {
        (sum ^ u64::from(*byte)).wrapping_mul(0x100_0000_01b3)
    })
}

fn run(options: &Options) -> io::Result<ExitCode> {
    let sheets = read_sheets(&options.file)?;
    let mut answer = String::with_capacity(ROOM);
    let mut sum = 0xcbf2_9ce4_8422_2325;
    let mut bytes = 0;
    for sheet in &sheets {
        answer.clear();
        (options.answering)(sheet, &mut answer);
        sum = checksum(sum, answer.as_bytes());
        bytes += answer.len();
    }
    let start = processor_time();
    for _ in 0..options.rounds {
        for sheet in &sheets {
            answer.clear();
            (options.answering)(black_box(sheet), &mut answer);
            black_box(&answer);
        }
    }
    let time = (processor_time() - start) / options.rounds.max(1);
    println!("{sum:016x} {bytes} {time}");
    Ok(ExitCode::SUCCESS)
}

fn main() -> ExitCode {
    program::run(USAGE, read_options, run)
}
