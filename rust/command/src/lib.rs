//! The command `scatterflock`: limits and times as text, answers in the
//! reader's words. docs/formats/text.md says what it reads and prints.
//!
//! - `options`: the words of the command line
//! - `input`: files as words or as text
//! - `problem`: a limit problem of a file
//! - `clash`: limits that clash, and their sum
//! - `found`: an answer in wide numbers, which a checker has accepted
//! - `own`: an answer put back into the text's own numbers
//! - `fraction`: fractions in lowest terms, with small amounts, and decimals to
//!   read
//! - `json`, `table`, `excerpt`: values as JSON, lines of cells, the line of a
//!   fault
//! - `page`, `digest`: an answer as a page of HTML, and the digest that it has
//! - `solve`, `check`, `times`, `words`, `smtlib`, `edit`, `traces`: what the command does;
//!   `smtlib` reads such texts too
//! - `day`, `pack`: the same of days' files
//! - `audit`: the totals of a day's file

mod audit;
mod check;
mod clash;
mod day;
mod digest;
mod edit;
mod excerpt;
mod found;
mod fraction;
mod input;
mod json;
mod options;
mod own;
mod pack;
mod page;
mod problem;
mod smtlib;
mod solve;
mod table;
mod times;
mod traces;
mod words;

use excerpt::excerpt;
use options::{Action, Options};
use std::ffi::OsString;
use std::io::{BufReader, Read, Write};
use text::Fault;

/// The status of a problem that can be met, or of an accepted answer.
pub const CAN: u8 = 0;
/// The status of a problem that cannot be met, or of an answer that is not
/// accepted.
pub const CANNOT: u8 = 1;
/// The status of a run that is out of range.
pub const RANGE: u8 = 2;
/// The status of words that are refused.
pub const REFUSED: u8 = 3;
/// The status of a bad text, or of a command that there is not.
pub const BAD: u8 = 4;
/// The status of a file that cannot be read.
pub const UNREAD: u8 = 5;
/// The status of output that cannot be written.
pub const UNWRITTEN: u8 = 5;
/// The status of output that nobody reads any more, as a signal would give it.
pub const UNHEARD: u8 = 141;
/// The status of an answer, of times or of a cycle, that the checker does not
/// accept. It has never been seen.
pub const CONTRADICTED: u8 = 6;

/// How the command ended.
#[derive(Debug, Clone, PartialEq, Eq)]
pub struct Ended {
    /// For standard output.
    pub output: Vec<u8>,
    /// For standard error.
    pub errors: String,
    /// The exit status.
    pub status: u8,
}

impl Ended {
    fn saying(output: String, status: u8) -> Ended {
        Ended { output: output.into_bytes(), errors: String::new(), status }
    }
}

/// Why there is no answer.
enum Failure {
    Usage(String),
    Unread { file: String, what: String },
    Bad { file: String, fault: Fault, line: String },
    Refused { number: u32, what: String, notes: Vec<String> },
    Contradicted,
}

/// Runs the command with these words.
pub fn run(words: &[OsString], stdin: &mut dyn Read) -> Ended {
    let mut said = Vec::new();
    let mut ended = run_writing(words, stdin, &mut said);
    ended.output.splice(..0, said);
    ended
}

/// Runs the command with these words. What `edit` answers goes to `out` at once;
/// all else is handed back.
pub fn run_writing(words: &[OsString], stdin: &mut dyn Read, out: &mut dyn Write) -> Ended {
    let options = match Options::read(words) {
        Ok(options) => options,
        Err(what) => return Failure::Usage(what).told(words.iter().any(|word| word == "--json")),
    };
    let done = match &options.action {
        Action::Help => Ok(Ended::saying(options::HELP.to_string(), CAN)),
        Action::Version => {
            Ok(Ended::saying(format!("scatterflock {}\n", env!("CARGO_PKG_VERSION")), CAN))
        }
        Action::Solve(file) => solve::run(file, &options, stdin),
        Action::Check(file, answer) => check::run(file, answer, &options, stdin),
        Action::Times(file) => times::run(file, &options, stdin),
        Action::Words(file) => words::run(file, &options, stdin),
        Action::Trace(file) => traces::trace(file, &options, stdin),
        Action::Replay(file, trace) => traces::replay(file, trace, options.json, stdin),
        Action::Smtlib(file) => smtlib::run(file, stdin),
        Action::Edit(file) => edit::run(file, &mut BufReader::new(stdin), out),
        Action::Day(file) => day::run(file, &options, stdin),
        Action::Audit(file) => audit::run(file, &options, stdin),
        Action::Pack(file, files) => pack::pack(file, files, &options, stdin),
        Action::Unpack(file, folder) => pack::unpack(file, folder, &options, stdin),
    };
    done.unwrap_or_else(|failure| failure.told(options.json))
}

impl Failure {
    fn told(self, is_json: bool) -> Ended {
        let (status, error, found) = match self {
            Failure::Usage(what) => {
                let error = format!("scatterflock: {what}; scatterflock --help tells more\n");
                (BAD, error, json::object(&[("error", json::text(&what))]))
            }
            Failure::Unread { file, what } => {
                let fields = [("error", json::text(&what)), ("file", json::text(&file))];
                (UNREAD, format!("scatterflock: {file}: {what}\n"), json::object(&fields))
            }
            Failure::Bad { file, fault, line } => {
                let Fault { line: number, column, what } = &fault;
                let shown = excerpt(&line, *column);
                let error = format!("{file}:{number}:{column}: {what}\n{shown}");
                let fields = [
                    ("error", json::text(what)),
                    ("file", json::text(&file)),
                    ("line", number.to_string()),
                    ("column", column.to_string()),
                ];
                (BAD, error, json::object(&fields))
            }
            Failure::Refused { number, what, notes } => {
                let fields = [
                    ("verdict", json::text("refused")),
                    ("number", number.to_string()),
                    ("reason", json::text(&what)),
                ];
                let notes: String = notes.iter().map(|note| format!("#   {note}\n")).collect();
                let said = format!("refused {number}\n\n# {what}\n{notes}");
                let said = if is_json { json::object(&fields) } else { said };
                return Ended::saying(said, REFUSED);
            }
            Failure::Contradicted => {
                let what = "the checker does not accept this answer, and so it is not shown";
                let fields = [("error", json::text(what))];
                (CONTRADICTED, format!("scatterflock: {what}\n"), json::object(&fields))
            }
        };
        let output = if is_json { found.into_bytes() } else { Vec::new() };
        Ended { output, errors: error, status }
    }
}
