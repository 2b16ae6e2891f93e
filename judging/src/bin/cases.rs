//! Runs a program on the sheets of case files and compares what it prints, or writes the sheets.
//!
//! README.md gives the notation of the files. The program is any that takes the option `--room`, and where a case asks
//! for the final state `--state`, as the judges do.

use judging::frames::write_frame;
use judging::notation::expand;
use judging::program;
use std::fs;
use std::io::{self, ErrorKind, Write};
use std::process::{Command, ExitCode, Stdio};

const USAGE: &str = "cases PROGRAM [--OPTION...] FILE... | cases --sheets FILE...";

struct Case {
    /// Where the case stands, and its text.
    title: String,
    room: Option<String>,
    sheet: String,
    answer: Answer,
    /// Lines that the final state must hold.
    state: Vec<String>,
}

enum Answer {
    Whole(String),
    /// Only how the answer ends.
    Ending(String),
}

struct Options {
    /// Without a program the sheets are only written.
    program: Option<Program>,
    files: Vec<String>,
}

/// A program, and what it is told besides what a case asks for.
struct Program {
    path: String,
    options: Vec<String>,
}

fn read_options(words: &[&str]) -> Option<Options> {
    let (first, further) = words.split_first()?;
    let further = further.iter().map(|word| word.to_string());
    let (options, files) = further.partition(|word| word.starts_with("--"));
    let program = match *first {
        "--sheets" => None,
        path => Some(Program {
            path: path.to_string(),
            options,
        }),
    };
    Some(Options { program, files })
}

fn read_file(file: &str) -> io::Result<Vec<Case>> {
    let no_case = |line, case: &str| io::Error::other(format!("{file}:{line}: no case: {case}"));
    whole_cases(&fs::read_to_string(file)?)
        .into_iter()
        .map(|(line, case)| read_case(file, line, &case).ok_or_else(|| no_case(line, &case)))
        .collect()
}

/// The cases with the numbers of their first lines. A line that begins with a space goes on with the case before it.
fn whole_cases(text: &str) -> Vec<(usize, String)> {
    let mut cases: Vec<(usize, String)> = Vec::new();
    for (line, number) in text.lines().zip(1..) {
        match cases.last_mut() {
            Some((_, case)) if line.starts_with(' ') => {
                case.push(' ');
                case.push_str(line.trim());
            }
            _ if line.is_empty() || line.starts_with('#') => {}
            _ => cases.push((number, line.to_string())),
        }
    }
    cases
}

fn read_case(file: &str, line: usize, text: &str) -> Option<Case> {
    let (given, wanted) = text.split_once("=>")?;
    let (room, sheet) = match given.strip_prefix("room ") {
        Some(rest) => {
            let (room, sheet) = rest.split_once(':')?;
            (Some(room.to_string()), sheet)
        }
        None => (None, given),
    };
    let (answer, state) = wanted.split_once('&').unwrap_or((wanted, ""));
    let answer = match answer.trim().strip_prefix("...") {
        Some(ending) => Answer::Ending(expand(ending)),
        None => Answer::Whole(expand(answer)),
    };
    Some(Case {
        title: format!("{file}:{line}: {text}"),
        room,
        sheet: expand(sheet),
        answer,
        state: expand(state).lines().map(str::to_string).collect(),
    })
}

fn run_program(program: &Program, case: &Case) -> io::Result<String> {
    let mut command = Command::new(&program.path);
    command.args(&program.options);
    if let Some(room) = &case.room {
        command.args(["--room", room]);
    }
    if !case.state.is_empty() {
        command.arg("--state");
    }
    let mut child = command
        .stdin(Stdio::piped())
        .stdout(Stdio::piped())
        .spawn()?;
    if let Some(mut input) = child.stdin.take() {
        match input.write_all(case.sheet.as_bytes()) {
            // A program that stops reading is judged by what it printed.
            Err(error) if error.kind() == ErrorKind::BrokenPipe => {}
            written => written?,
        }
    }
    let printed = child.wait_with_output()?.stdout;
    Ok(String::from_utf8_lossy(&printed).into_owned())
}

fn is_wanted(case: &Case, printed: &str) -> bool {
    match &case.answer {
        Answer::Ending(ending) => printed.ends_with(ending),
        Answer::Whole(answer) => printed
            .strip_prefix(answer.as_str())
            .is_some_and(|state| is_wanted_state(case, state)),
    }
}

/// The state is printed only when the case asks for lines of it.
fn is_wanted_state(case: &Case, printed: &str) -> bool {
    let holds = |wanted: &String| printed.lines().any(|line| line == wanted);
    match case.state[..] {
        [] => printed.is_empty(),
        _ => case.state.iter().all(holds),
    }
}

/// Whether the program prints what the case wants; if not, shows what it prints.
fn passes(program: &Program, case: &Case) -> io::Result<bool> {
    let printed = run_program(program, case)?;
    let passes = is_wanted(case, &printed);
    if !passes {
        println!("{}\nprinted:\n{printed}", case.title);
    }
    Ok(passes)
}

fn run_cases(program: &Program, cases: &[Case]) -> io::Result<ExitCode> {
    let mut passed = 0;
    for case in cases {
        passed += usize::from(passes(program, case)?);
    }
    let failed = cases.len() - passed;
    println!("{passed} passed, {failed} failed");
    Ok(ExitCode::from(u8::from(failed > 0)))
}

/// Writes the sheets as frames. Frames have no room of their own, so cases with one are left out.
fn write_sheets(cases: &[Case]) -> io::Result<ExitCode> {
    let mut output = io::stdout().lock();
    for case in cases.iter().filter(|case| case.room.is_none()) {
        write_frame(&mut output, case.sheet.as_bytes())?;
    }
    Ok(ExitCode::SUCCESS)
}

fn run(options: &Options) -> io::Result<ExitCode> {
    let mut cases = Vec::new();
    for file in &options.files {
        cases.append(&mut read_file(file)?);
    }
    match &options.program {
        Some(program) => run_cases(program, &cases),
        None => write_sheets(&cases),
    }
}

fn main() -> ExitCode {
    program::run(USAGE, read_options, run)
}
