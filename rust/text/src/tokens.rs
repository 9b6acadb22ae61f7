//! A line's tokens, with their columns.
//!
//! - `number`: numbers, and what is none
//! - `strange`: characters that no line has

mod number;
mod strange;

use crate::exact::Exact;
use crate::fault::Fault;
use number::number;
use strange::{is_space, is_unseen, no_meaning, unseen};

#[derive(Debug, Clone, Copy, PartialEq, Eq)]
pub enum Sign {
    AtMost,
    AtLeast,
    Equal,
    Below,
    Above,
}

#[derive(Debug, Clone, PartialEq, Eq)]
pub enum Kind {
    /// A whole number from 0 on.
    Number(i64),
    /// A decimal: its digits, and the power of ten that they are over.
    Decimal(i64, i64),
    /// A clock time, in minutes.
    Clock(i64),
    /// The number of a constant, put in its place.
    Constant(Exact),
    Name(String),
    Plus,
    Minus,
    Times,
    Over,
    Colon,
    Sign(Sign),
}

#[derive(Debug, Clone, PartialEq, Eq)]
pub struct Token {
    pub kind: Kind,
    pub column: usize,
}

impl Kind {
    /// Whether it is a number, whole or not.
    pub fn is_number(&self) -> bool {
        let is_constant = matches!(self, Kind::Constant(_));
        is_constant || matches!(self, Kind::Number(_) | Kind::Decimal(..) | Kind::Clock(_))
    }
}

/// The tokens of a line and the column past its end, comment left out.
pub struct Line {
    pub number: usize,
    pub tokens: Vec<Token>,
    pub end: usize,
    /// The name of the line, and its column: `budget: x + y <= 3`.
    pub label: Option<(String, usize)>,
}

impl Line {
    pub fn fault(&self, column: usize, what: impl Into<String>) -> Fault {
        Fault::new(self.number, column, what)
    }

    /// The first token, where it is a name.
    pub fn first_name(&self) -> Option<&str> {
        match self.tokens.first() {
            Some(Token { kind: Kind::Name(name), .. }) => Some(name),
            _ => None,
        }
    }

    /// The same with clock times as minutes.
    pub fn with_minutes(mut self) -> Line {
        for token in &mut self.tokens {
            if let Kind::Clock(minutes) = token.kind {
                token.kind = Kind::Number(minutes);
            }
        }
        self
    }

    /// The fault of a clock time, where none has a meaning.
    pub fn without_clock(self) -> Result<Line, Fault> {
        let found = self.tokens.iter().find_map(|token| match token.kind {
            Kind::Clock(minutes) => Some((token.column, minutes)),
            _ => None,
        });
        let Some((column, minutes)) = found else { return Ok(self) };
        let what = format!("a clock time stands in time rows alone; in minutes it is {minutes}");
        Err(self.fault(column, what))
    }

    /// Whether the first token is this name.
    pub fn begins_with(&self, name: &str) -> bool {
        self.first_name() == Some(name)
    }
}

/// The lines that hold anything but a comment.
pub fn lines(text: &str) -> impl Iterator<Item = Result<Line, Fault>> + '_ {
    let text = text.strip_prefix('\u{feff}').unwrap_or(text);
    let all = text.split('\n').enumerate();
    all.map(|(place, line)| tokens(place + 1, line))
        .filter(|line| line.as_ref().map_or(true, |line| !line.tokens.is_empty()))
}

fn tokens(number: usize, text: &str) -> Result<Line, Fault> {
    let text = text.strip_suffix('\r').unwrap_or(text);
    if let Some((at, c)) = text.chars().enumerate().find(|&(_, c)| is_unseen(c)) {
        return Err(Fault::new(number, at + 1, unseen(c)));
    }
    let (said, comment) = text.split_once('#').unwrap_or((text, ""));
    let chars: Vec<char> = said.chars().collect();
    let is_cut = chars.last().is_some_and(|c| c.is_ascii_alphanumeric());
    if is_cut && comment.starts_with(|c: char| c.is_ascii_digit()) {
        let what = "a # between digits: leave a space before a comment";
        return Err(Fault::new(number, chars.len() + 1, what));
    }
    let end = chars.iter().rposition(|&c| !is_space(c)).map_or(1, |last| last + 2);
    let mut tokens = Vec::new();
    let mut at = 0;
    while at < chars.len() {
        if is_space(chars[at]) {
            at += 1;
            continue;
        }
        let (kind, length) =
            token(&chars[at..]).map_err(|what| Fault::new(number, at + 1, what))?;
        tokens.push(Token { kind, column: at + 1 });
        at += length;
    }
    let label = match &tokens[..] {
        [Token { kind: Kind::Name(name), column }, Token { kind: Kind::Colon, .. }, ..] => {
            Some((name.clone(), *column))
        }
        _ => None,
    };
    if let Some((name, _)) = &label {
        tokens.drain(..2);
        if tokens.is_empty() {
            return Err(Fault::new(number, end, format!("a limit is missing after {name}:")));
        }
    }
    if let Some(colon) = tokens.iter().find(|token| token.kind == Kind::Colon) {
        return Err(Fault::new(number, colon.column, no_meaning(':')));
    }
    Ok(Line { number, tokens, end, label })
}

/// The first token and its length.
fn token(chars: &[char]) -> Result<(Kind, usize), String> {
    let (first, second) = (chars[0], chars.get(1).copied().unwrap_or(' '));
    match (first, second) {
        ('+', _) => Ok((Kind::Plus, 1)),
        ('-', _) => Ok((Kind::Minus, 1)),
        ('*', _) => Ok((Kind::Times, 1)),
        ('/', _) => Ok((Kind::Over, 1)),
        (':', _) => Ok((Kind::Colon, 1)),
        ('<', '=') => Ok((Kind::Sign(Sign::AtMost), 2)),
        ('>', '=') => Ok((Kind::Sign(Sign::AtLeast), 2)),
        ('=', '<') => Err("write <= in place of =<".to_string()),
        ('=', '>') => Err("write >= in place of =>".to_string()),
        ('=', '=') => Err("write = in place of ==".to_string()),
        ('<' | '>', '-' | '+') => {
            let meant = if second == '-' { "minus" } else { "plus" };
            Err(format!("{first}{second}: is it {first}=? Leave a space where {meant} is meant"))
        }
        ('<', '>') | ('!', '=') => Err("there is no sign for \"other than\"".to_string()),
        ('<', _) => Ok((Kind::Sign(Sign::Below), 1)),
        ('>', _) => Ok((Kind::Sign(Sign::Above), 1)),
        ('=', _) => Ok((Kind::Sign(Sign::Equal), 1)),
        ('\u{2264}', _) => Err("write <= in place of \u{2264}".to_string()),
        ('\u{2265}', _) => Err("write >= in place of \u{2265}".to_string()),
        ('\u{2212}' | '\u{2013}', _) => Err("write - for minus: this is another dash".to_string()),
        (c, _) if c.is_ascii_digit() => number(chars),
        ('.' | ',', c) if c.is_ascii_digit() => number(chars),
        (c, _) if c.is_ascii_alphabetic() || c == '_' => name(chars),
        (c, _) => Err(no_meaning(c)),
    }
}

/// The most characters of a name.
const MOST_NAME: usize = 60;

/// A text, or its beginning where it is long.
pub fn short(text: &str) -> String {
    match text.char_indices().nth(MOST_NAME) {
        Some((end, _)) => format!("{}..", &text[..end]),
        None => text.to_string(),
    }
}

fn name(chars: &[char]) -> Result<(Kind, usize), String> {
    let is_part = |c: &char| c.is_ascii_alphanumeric() || *c == '_';
    let text: String = chars.iter().take_while(|c| is_part(c)).collect();
    let length = text.len();
    if length > MOST_NAME {
        return Err(format!(
            "{} is too long: a name has {MOST_NAME} letters at most",
            short(&text)
        ));
    }
    match text.to_ascii_lowercase().as_str() {
        "nan" | "inf" | "infinity" => Err(format!("{text} is no number, and no name")),
        _ => Ok((Kind::Name(text), length)),
    }
}
