//! The notation of sheets and answers in case files, which README.md gives.

/// In a repeated line, stands for the number of the repeat, from 0.
const REPEAT_NUMBER: &str = "#";

/// Turns the notation into text: ` / ` separates lines and a space separates fields.
pub fn expand(notation: &str) -> String {
    let notation = notation.trim();
    let (lines, unfinished) = match notation.strip_suffix("\\!") {
        Some(lines) => (lines, true),
        None => (notation, false),
    };
    if lines.is_empty() {
        return String::new();
    }
    let mut text: String = lines.split(" / ").map(expand_line).collect();
    if unfinished {
        text.pop();
    }
    text
}

fn expand_line(line: &str) -> String {
    match repeat(line, " *") {
        Some((line, count)) => (0..count)
            .map(|number| expand_line(&line.replace(REPEAT_NUMBER, &number.to_string())))
            .collect(),
        None => {
            let fields: Vec<String> = line.split(' ').map(expand_field).collect();
            fields.join("\t") + "\n"
        }
    }
}

fn expand_field(field: &str) -> String {
    match repeat(field, "*") {
        Some((field, count)) => vec![expand_field(field); count].join("\t"),
        None => field
            .replace("\\e", "")
            .replace("\\s", " ")
            .replace("\\r", "\r")
            .replace("\\0", "\0"),
    }
}

/// What stands before the mark, and the count after it.
fn repeat<'text>(text: &'text str, mark: &str) -> Option<(&'text str, usize)> {
    let (repeated, count) = text.rsplit_once(mark)?;
    Some((repeated, count.parse().ok()?))
}
