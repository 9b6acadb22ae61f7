//! `scatterflock smtlib`: limits as SMT-LIB text, for other solvers; and such texts,
//! read back.

use crate::input::bad;
use crate::problem::{problem, refused_words};
use crate::{input, Ended, Failure, CAN};
use scatterflock::Problem;
use std::collections::BTreeSet;
use std::ffi::OsStr;
use std::io::Read;
use text::limits::Limits;
use text::Fault;

/// How many characters of a token are told.
const MOST: usize = 40;

pub fn run(file: &OsStr, stdin: &mut dyn Read) -> Result<Ended, Failure> {
    let (_, limits) = problem(input::problem(file, stdin)?)?;
    let problem =
        Problem::from_words(&limits.words()).map_err(|refusal| refused_words(&limits, refusal))?;
    // The text itself has no comment: a note goes beside it.
    let errors = match limits.parts {
        1 => String::new(),
        parts => format!("scatterflock: the x of this text count parts of 1/{parts}\n"),
    };
    Ok(Ended { output: problem.to_smtlib().into_bytes(), errors, status: CAN })
}

/// The problem of an SMT-LIB text. Each limit has its line, where no two have one.
pub fn read(file: &str, text: &[u8]) -> Result<Limits, Failure> {
    let problem =
        Problem::from_smtlib(text).map_err(|refusal| misread(file, text, refusal.place))?;
    let mut limits = Limits::from_words(&problem.words()).expect("a problem is not refused");
    let lines = relations(text);
    if lines.iter().collect::<BTreeSet<&usize>>().len() == lines.len() {
        // A text has its limits in the order of the words.
        let all = limits.limits.iter_mut().flatten().flatten();
        all.zip(lines).for_each(|(limit, line)| limit.line = Some(line));
    }
    Ok(limits)
}

/// The lines in which relations between a name and a number stand, in their order.
fn relations(text: &[u8]) -> Vec<usize> {
    let mut found = Vec::new();
    for (place, line) in text.split(|&byte| byte == b'\n').enumerate() {
        let parts = line.split(|&byte| byte == b'\r');
        let said = parts.filter_map(|part| part.split(|&byte| byte == b';').next());
        let words = said.flat_map(|said| said.split(|byte| b"\t ()".contains(byte)));
        let relations = words.filter(|word| matches!(*word, b">=" | b">" | b"<=" | b"<"));
        found.extend(relations.map(|_| place + 1));
    }
    found
}

/// The fault of a text that is refused at a place.
fn misread(file: &str, text: &[u8], place: usize) -> Failure {
    let (before, rest) = text.split_at(place);
    let before = String::from_utf8_lossy(before);
    let line = before.split('\n').count();
    let column = before.rsplit('\n').next().unwrap_or("").chars().count() + 1;
    let what = match token(rest) {
        token if token.is_empty() => "the text ends too early".to_string(),
        token => format!("{token} cannot stand here: no text of a problem goes on with it"),
    };
    bad(file, &String::from_utf8_lossy(text), Fault { line, column, what })
}

/// The token that begins here, to tell: its first characters.
fn token(rest: &[u8]) -> String {
    let length = match rest.first() {
        Some(b'(' | b')') => 1,
        _ => rest.iter().position(|byte| b"\t\n\r ();".contains(byte)).unwrap_or(rest.len()),
    };
    let token = String::from_utf8_lossy(&rest[..length]);
    let plain = |c: char| if c.is_control() { char::REPLACEMENT_CHARACTER } else { c };
    let shown: String = token.chars().map(plain).take(MOST).collect();
    if token.chars().count() > MOST {
        shown + ".."
    } else {
        shown
    }
}
