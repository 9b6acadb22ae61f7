//! Constants: `let step = 62.5`.

use crate::exact::Exact;
use crate::fault::Fault;
use crate::labels::Labels;
use crate::names::{are_alike, unfit};
use crate::statement::number;
use crate::tokens::{lines, Kind, Line, Sign};

/// The word that a line begins with which defines one.
pub const WORD: &str = "let";

const WRITTEN: &str = "a constant is written with its number: let step = 62.5";

/// The constants of a text, as far as it is read.
#[derive(Debug)]
pub struct Constants {
    known: Vec<Constant>,
    /// Every name that some line defines, further down too, and the line.
    places: Vec<(String, usize)>,
}

#[derive(Debug)]
struct Constant {
    name: String,
    number: Exact,
    line: usize,
    column: usize,
    is_used: bool,
}

impl Constants {
    /// None yet. The text says which ones are to come.
    pub fn new(text: &str) -> Constants {
        let defined = lines(text)
            .filter_map(Result::ok)
            .filter_map(|line| Some((defined(&line)?.0.to_string(), line.number)));
        Constants { known: Vec::new(), places: defined.collect() }
    }

    /// Takes the constant of a line `let step = 62.5`. It is none of the names, and
    /// no line is called so.
    pub fn define(&mut self, line: &Line, names: &[String], labels: &Labels) -> Result<(), Fault> {
        let Some((name, column)) = defined(line) else {
            let column = line.tokens.get(1).map_or(line.end, |token| token.column);
            return Err(line.fault(column, WRITTEN));
        };
        if let Some(what) = self.taken(name, names, labels) {
            return Err(line.fault(column, what));
        }
        let after = line.tokens.get(2).map(|token| &token.kind);
        if after != Some(&Kind::Sign(Sign::Equal)) {
            let column = line.tokens.get(2).map_or(line.end, |token| token.column);
            return Err(line.fault(column, WRITTEN));
        }
        let (name, number) = (name.to_string(), number(line, 3, WRITTEN)?);
        self.known.push(Constant { name, number, line: line.number, column, is_used: false });
        Ok(())
    }

    /// What is wrong with the name of a constant.
    fn taken(&self, name: &str, names: &[String], labels: &Labels) -> Option<String> {
        let known = |other: &&Constant| are_alike(&other.name, name);
        if let Some(what) = unfit(name) {
            Some(what)
        } else if let Some(other) = names.iter().find(|other| are_alike(other, name)) {
            Some(match other == name {
                true => format!("{name} is among the names, and cannot be a constant"),
                false => format!("{name} and {other}, which is among the names, look alike"),
            })
        } else if let Some(before) = self.known.iter().find(known) {
            let (other, line) = (&before.name, before.line);
            Some(match other == name {
                true => format!("{name} is defined already, in line {line}"),
                false => format!("{name} and {other}, of line {line}, look alike"),
            })
        } else {
            let line = labels.like(name)?;
            Some(format!("line {line} is called {name}, which cannot be a constant then"))
        }
    }

    /// The line with numbers in the places of its constants.
    pub fn put_in(&mut self, mut line: Line) -> Result<Line, Fault> {
        for at in 0..line.tokens.len() {
            let Kind::Name(name) = &line.tokens[at].kind else { continue };
            if let Some(constant) = self.known.iter_mut().find(|other| other.name == *name) {
                constant.is_used = true;
                line.tokens[at].kind = Kind::Constant(constant.number);
            } else if let Some((name, place)) = self.places.iter().find(|other| other.0 == *name) {
                let what =
                    format!("{name} is defined in line {place}, and has to be above its use");
                return Err(line.fault(line.tokens[at].column, what));
            }
        }
        Ok(line)
    }

    /// The fault of a constant that nothing uses.
    pub fn unused(&self) -> Result<(), Fault> {
        let unused = self.known.iter().find(|constant| !constant.is_used);
        unused.map_or(Ok(()), |Constant { name, line, column, .. }| {
            let what = format!("nothing uses {name}, and it says nothing then: leave it out");
            Err(Fault::new(*line, *column, what))
        })
    }

    /// The names of those that are read already.
    pub fn names(&self) -> impl Iterator<Item = &str> {
        self.known.iter().map(|constant| constant.name.as_str())
    }
}

/// The name that a line defines, and its column, where it defines one.
fn defined(line: &Line) -> Option<(&str, usize)> {
    let token = line.tokens.get(1).filter(|_| line.begins_with(WORD))?;
    match &token.kind {
        Kind::Name(name) => Some((name, token.column)),
        _ => None,
    }
}

/// The names that lines of a text define.
pub fn all_defined(lines: &[Line]) -> Vec<&str> {
    lines.iter().filter_map(|line| Some(defined(line)?.0)).collect()
}
