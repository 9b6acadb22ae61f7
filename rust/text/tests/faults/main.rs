//! Each way to be wrong has its own words, line and column.

mod answers;
mod constants;
mod habits;
mod limits;
mod names;
mod times;

use text::Fault;

/// The fault of a text of limits.
fn limit_fault(text: &str) -> String {
    text::limits::read(text).map_or_else(|fault| fault.to_string(), |read| format!("{read:?}"))
}

fn time_fault(text: &str) -> String {
    text::times::read(text).map_or_else(|fault| fault.to_string(), |read| format!("{read:?}"))
}

/// The fault of lines whose names are declared in a line before the first. The
/// place is counted without it; the lines that are told are those of the text.
fn below(opening: &str, lines: &str) -> String {
    let text = format!("{opening}\n{lines}");
    let fault = match opening.starts_with("names") {
        true => text::limits::read(&text).map(|read| format!("{read:?}")),
        false => text::times::read(&text).map(|read| format!("{read:?}")),
    };
    fault.unwrap_or_else(|Fault { line, column, what }| format!("{}:{column}: {what}", line - 1))
}
