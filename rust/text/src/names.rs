//! The names of a text: those that its first lines declare, and no others.

use crate::answer::SMALL;
use crate::constants::Constants;
use crate::fault::Fault;
use crate::near::nearest;
use crate::tokens::{Kind, Line};

/// Words that begin a line of their own kind, and are no names.
pub const RESERVED: [&str; 5] = ["names", "times", "free", "row", "let"];

/// How many names are listed where one is not among them.
const MOST_LISTED: usize = 8;

#[derive(Debug)]
pub struct Names {
    pub list: Vec<String>,
    /// The line and the column where each is declared.
    pub places: Vec<(usize, usize)>,
    pub constants: Constants,
    most: usize,
}

impl Names {
    pub fn new(most: usize, constants: Constants) -> Names {
        Names { list: Vec::new(), places: Vec::new(), constants, most }
    }

    /// Takes the names of a line `names x y`, or `times x y`.
    pub fn declare(&mut self, line: &Line) -> Result<(), Fault> {
        if let Some((label, column)) = &line.label {
            let what = format!("{label}: a line that opens a text has no name of its own");
            return Err(line.fault(*column, what));
        }
        for (name, column) in after_first(line)? {
            if let Some(what) = unfit(name) {
                return Err(line.fault(column, what));
            }
            if let Some(before) = self.list.iter().position(|other| other == name) {
                let what = format!("{name} is declared already, in line {}", self.places[before].0);
                return Err(line.fault(column, what));
            }
            if let Some(other) = self.list.iter().find(|other| other.eq_ignore_ascii_case(name)) {
                let what = format!("{name} and {other} differ in small and capital letters alone");
                return Err(line.fault(column, what));
            }
            if let Some(other) = self.list.iter().find(|other| are_alike(other, name)) {
                let what = format!("{name} and {other} look alike");
                return Err(line.fault(column, what));
            }
            if self.list.len() == self.most {
                let what = format!("{name} is one too many: there are {} names at most", self.most);
                return Err(line.fault(column, what));
            }
            self.list.push(name.to_string());
            self.places.push((line.number, column));
        }
        Ok(())
    }

    /// The number of a name that is used here; `is_counted` where a number
    /// stands before it.
    pub fn used(
        &self,
        line: &Line,
        column: usize,
        name: &str,
        is_counted: bool,
    ) -> Result<usize, Fault> {
        let found = self.list.iter().position(|other| other == name);
        found.ok_or_else(|| line.fault(column, self.unknown(name, is_counted)))
    }

    /// What to say of a name that is not declared.
    fn unknown(&self, name: &str, is_counted: bool) -> String {
        if let Some(word) = reserved(name) {
            return match name == word {
                true => format!("{name} is no name: it begins a line of its own kind"),
                false => format!("{name} is no name: write {word}, at the beginning of a line"),
            };
        }
        if self.constants.names().any(|other| other == name) {
            return format!("{name} is a constant, and none of the names");
        }
        let start = format!("{name} is not among the names");
        let known = self.list.iter().map(String::as_str).chain(self.constants.names());
        if let Some(near) = nearest(name, known) {
            return format!("{start}; is it {near}?");
        }
        if is_counted {
            return format!("{start}; a unit is left out, or stands in a comment: # {name}");
        }
        let more = if self.list.len() > MOST_LISTED { " .." } else { "" };
        let listed = &self.list[..self.list.len().min(MOST_LISTED)];
        format!("{start}: {}{more}", listed.join(" "))
    }

    /// The names of a line `free x y`.
    pub fn free(&self, line: &Line) -> Result<Vec<(usize, usize)>, Fault> {
        let names = after_first(line)?.into_iter();
        names.map(|(name, column)| Ok((self.used(line, column, name, false)?, column))).collect()
    }
}

/// The word that this is, but for small and capital letters.
fn reserved(name: &str) -> Option<&'static str> {
    RESERVED.into_iter().find(|word| word.eq_ignore_ascii_case(name))
}

/// What is wrong with a name, whatever other names there are.
pub fn unfit(name: &str) -> Option<String> {
    if let Some(word) = reserved(name) {
        return Some(format!("{name} is no name: {word} begins a line of its own kind"));
    }
    let is_amount = name.eq_ignore_ascii_case(SMALL);
    is_amount.then(|| format!("{name} is no name: answers call an amount so"))
}

/// Whether two names are the same, or are taken for each other.
pub fn are_alike(one: &str, other: &str) -> bool {
    one.eq_ignore_ascii_case(other) || outline(one) == outline(other)
}

/// A name, but for letters that are taken for digits.
fn outline(name: &str) -> String {
    let taken = |c: char| match c {
        'o' | 'O' => '0',
        'l' | 'I' => '1',
        c => c,
    };
    name.chars().map(taken).collect()
}

/// The names behind a line's first word, with their columns.
fn after_first(line: &Line) -> Result<Vec<(&str, usize)>, Fault> {
    let first = line.first_name().unwrap_or_default();
    if line.tokens.len() == 1 {
        return Err(line.fault(line.end, format!("a name is missing after {first}")));
    }
    let names = line.tokens[1..].iter().map(|token| match &token.kind {
        Kind::Name(name) => Ok((name.as_str(), token.column)),
        _ => {
            let what = format!("after {first} stand names alone: {first} x y");
            Err(line.fault(token.column, what))
        }
    });
    names.collect()
}
