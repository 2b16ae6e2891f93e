//! What the programs share: options, a usage line, and an error said plainly.

use std::env;
use std::io;
use std::process::ExitCode;

/// Runs a program on its options. Words that are no options of it show its usage.
pub fn run<Options>(
    usage: &str,
    read_options: impl FnOnce(&[&str]) -> Option<Options>,
    act: impl FnOnce(&Options) -> io::Result<ExitCode>,
) -> ExitCode {
    let words: Vec<String> = env::args().skip(1).collect();
    let words: Vec<&str> = words.iter().map(String::as_str).collect();
    let Some(options) = read_options(&words) else {
        eprintln!("usage: {usage}");
        return ExitCode::from(2);
    };
    act(&options).unwrap_or_else(|error| {
        eprintln!("{error}");
        ExitCode::FAILURE
    })
}
