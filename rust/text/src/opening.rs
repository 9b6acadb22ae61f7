//! The lines that open a text: they say what it holds, and declare its names.

use crate::constants::{self, Constants};
use crate::fault::Fault;
use crate::names::{Names, RESERVED};
use crate::near::nearest;
use crate::tokens::{lines, Kind, Line};
use std::iter::Peekable;

/// What a text holds.
#[derive(Debug, Clone, Copy, PartialEq, Eq)]
pub enum Holds {
    /// Limits: its first line begins with `names`.
    Limits,
    /// Time rows: its first line begins with `times`.
    Times,
}

impl Holds {
    const BOTH: [Holds; 2] = [Holds::Limits, Holds::Times];

    /// The word that its first line begins with.
    #[must_use]
    pub fn word(self) -> &'static str {
        match self {
            Holds::Limits => "names",
            Holds::Times => "times",
        }
    }

    /// What the first line of a text says that it holds.
    #[must_use]
    pub fn of(text: &str) -> Option<Holds> {
        let text = text.strip_prefix('\u{feff}').unwrap_or(text);
        let first = text.lines().map(|line| line.split('#').next().unwrap_or(""));
        let word = first.flat_map(str::split_whitespace).next()?;
        Holds::BOTH.into_iter().find(|holds| holds.word() == word)
    }
}

/// Words behind a number that are no names: a line to paste leaves them out.
const UNITS: [&str; 24] = [
    "C", "F", "K", "degC", "degF", "deg", "degrees", "Celsius", "kelvin", "s", "sec", "seconds",
    "min", "mins", "minute", "minutes", "h", "hours", "W", "kW", "V", "A", "bar", "percent",
];

/// The names of a text that has to hold this; `from` goes on behind them.
pub fn names<'a>(
    text: &str,
    from: &mut Peekable<impl Iterator<Item = Result<Line, Fault>> + 'a>,
    holds: Holds,
    most: usize,
) -> Result<Names, Fault> {
    if Holds::of(text) != Some(holds) {
        return Err(unopened(text, holds));
    }
    let mut names = Names::new(most, Constants::new(text));
    while let Some(line) =
        from.next_if(|line| line.as_ref().map_or(true, |line| line.begins_with(holds.word())))
    {
        names.declare(&line?)?;
    }
    Ok(names)
}

/// How many names stand in a line that is shown.
const NAMES_A_LINE: usize = 8;

/// The lines that open a text with these names.
pub fn opened(holds: Holds, names: &[String]) -> String {
    let lines = names.chunks(NAMES_A_LINE);
    lines.map(|names| format!("{} {}\n", holds.word(), names.join(" "))).collect()
}

/// The line that says that nothing limits these names, where there are any.
pub fn free<'a>(names: impl Iterator<Item = &'a String>) -> String {
    let names: Vec<&str> = names.map(String::as_str).collect();
    match names[..] {
        [] => String::new(),
        _ => format!("free {}\n", names.join(" ")),
    }
}

/// The fault of a line that opens a text, and stands further down.
pub fn late(line: &Line, holds: Holds) -> Option<Fault> {
    let word = Holds::BOTH.into_iter().find(|holds| line.begins_with(holds.word()))?;
    let what = match word == holds {
        true => format!("a line {} stands above all others", word.word()),
        false => "limits and time rows stand in texts of their own".to_string(),
    };
    Some(line.fault(line.tokens[0].column, what))
}

/// The fault of a text that is not opened as one that holds this.
fn unopened(text: &str, holds: Holds) -> Fault {
    let all: Vec<Line> = lines(text).filter_map(Result::ok).collect();
    let none = match holds {
        Holds::Limits => "there is no limit in this text",
        Holds::Times => "there is no time row in this text",
    };
    let place = first_place(text);
    let Some((line, column)) = place else { return Fault::new(1, 1, none) };
    let fault = |what: String| Fault::new(line, column, what);
    if Holds::of(text).is_some() {
        return fault(
            match holds {
                Holds::Limits => "these are time rows, not limits: scatterflock times answers them",
                Holds::Times => "these are limits, not time rows: scatterflock solve answers them",
            }
            .to_string(),
        );
    }
    let first = all.first().filter(|first| first.number == line);
    if first.is_some_and(|first| {
        first.tokens.len() == 1 && (first.begins_with("can") || first.begins_with("cannot"))
    }) {
        return fault("this is an answer: scatterflock check FILE ANSWER looks at it".to_string());
    }
    let word = holds.word();
    if let Some(word) = first.and_then(Line::first_name).filter(|first| {
        let is_list = all[0].tokens.iter().all(|token| matches!(token.kind, Kind::Name(_)));
        is_list && *first != word && nearest(first, [word].into_iter()).is_some()
    }) {
        return fault(format!("{word}: write {}, in small letters", holds.word()));
    }
    if let Some((label, _)) =
        first.and_then(|first| first.label.as_ref()).filter(|_| all[0].begins_with(word))
    {
        return fault(format!("{label}: a line that opens a text has no name of its own"));
    }
    if let Some(late) = all.iter().find(|line| line.begins_with(word)) {
        return fault(format!("line {} declares the names, and has to be the first", late.number));
    }
    let names = said(&all);
    fault(match names.is_empty() {
        true => format!("{none}: it opens with its names, as in {word} zone1 zone2"),
        false => {
            format!("the names are not declared; put this line first: {word} {}", names.join(" "))
        }
    })
}

/// Line and column of the first character that is not in a comment.
fn first_place(text: &str) -> Option<(usize, usize)> {
    let text = text.strip_prefix('\u{feff}').unwrap_or(text);
    text.split('\n').enumerate().find_map(|(place, line)| {
        let said = line.split('#').next().unwrap_or("");
        let column = said.chars().position(|c| !c.is_whitespace())?;
        Some((place + 1, column + 1))
    })
}

/// The names of the lines that have a sign, in the order of their first use, but
/// for constants, and for those that look like a unit, or like a slip in a name that
/// is used more often: they are told once the others are declared.
fn said(lines: &[Line]) -> Vec<&str> {
    let constants = constants::all_defined(lines);
    let mut found: Vec<(&str, usize, bool)> = Vec::new();
    for line in lines {
        if !line.tokens.iter().any(|token| matches!(token.kind, Kind::Sign(_))) {
            continue;
        }
        for (place, token) in line.tokens.iter().enumerate() {
            let Kind::Name(name) = &token.kind else { continue };
            if RESERVED.contains(&name.as_str()) || constants.contains(&name.as_str()) {
                continue;
            }
            let before = place.checked_sub(1).map(|before| &line.tokens[before].kind);
            let is_counted = before.is_some_and(Kind::is_number);
            match found.iter_mut().find(|other| other.0 == name) {
                Some((_, count, always_counted)) => {
                    *count += 1;
                    *always_counted &= is_counted;
                }
                None => found.push((name, 1, is_counted)),
            }
        }
    }
    let is_meant = |place: &usize| {
        let (name, count, always_counted) = found[*place];
        let others = found.iter().enumerate();
        let more = others.filter(|(at, other)| (other.1, *place) > (count, *at));
        !(always_counted && UNITS.contains(&name))
            && nearest(name, more.map(|(_, other)| other.0)).is_none()
    };
    (0..found.len()).filter(is_meant).map(|place| found[place].0).collect()
}
