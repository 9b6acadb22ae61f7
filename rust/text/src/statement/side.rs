//! A sum of names and numbers, up to the next sign of a line.

use super::{Term, LARGEST_COEFFICIENT, LARGEST_LIMIT};
use crate::exact::Exact;
use crate::fault::Fault;
use crate::tokens::{Kind, Line, Token};

/// A sum: its names, and what its numbers come to.
pub struct Side {
    pub terms: Vec<Term>,
    pub number: Exact,
}

/// A sum. `end` is the column past it.
pub fn side(line: &Line, tokens: &[Token], end: usize) -> Result<Side, Fault> {
    let mut side = Side { terms: Vec::new(), number: Exact::ZERO };
    let mut rest = tokens;
    let mut is_first = true;
    while is_first || !rest.is_empty() {
        let sign = match rest.first().map(|token| &token.kind) {
            Some(Kind::Plus) => Some(1),
            Some(Kind::Minus) => Some(-1),
            Some(next) if !is_first => {
                let before = &tokens[tokens.len() - rest.len() - 1].kind;
                return Err(line.fault(rest[0].column, unjoined(before, next)));
            }
            _ => None,
        };
        rest = &rest[usize::from(sign.is_some())..];
        let length = term(line, rest, end, sign.unwrap_or(1), &mut side)?;
        rest = &rest[length..];
        is_first = false;
    }
    Ok(side)
}

/// What to say where no sign stands between two things.
fn unjoined(before: &Kind, next: &Kind) -> String {
    match (before, next) {
        (Kind::Name(word), _) if OPTIMISING.contains(&word.to_ascii_lowercase().as_str()) => {
            "there is no optimising: a line says what a limit is, as in x <= 40".to_string()
        }
        (Kind::Name(name), Kind::Number(number)) => {
            format!("a name has no space in it: {name}{number}; or a sign, + or -, is missing")
        }
        (before, next) if are_numbers(before, next) && is_constant(before, next) => {
            "a number and a constant are not multiplied; or a sign, + or -, is missing".to_string()
        }
        (before, next) if are_numbers(before, next) => {
            "a number has no space in it, or a sign, + or -, is missing before this".to_string()
        }
        (_, Kind::Times | Kind::Over) => PRODUCT.to_string(),
        _ => "a sign, + or -, is missing before this".to_string(),
    }
}

fn are_numbers(one: &Kind, other: &Kind) -> bool {
    one.is_number() && other.is_number()
}

fn is_constant(one: &Kind, other: &Kind) -> bool {
    matches!(one, Kind::Constant(_)) || matches!(other, Kind::Constant(_))
}

/// Words that ask for the best of all answers.
const OPTIMISING: [&str; 6] = ["maximize", "maximise", "minimize", "minimise", "max", "min"];

const PRODUCT: &str = "only a number and a name can be multiplied: 3 * x";

/// Adds the term that comes next, and says how many tokens it is made of.
fn term(
    line: &Line,
    rest: &[Token],
    end: usize,
    sign: i64,
    side: &mut Side,
) -> Result<usize, Fault> {
    let kinds: Vec<&Kind> = rest.iter().take(6).map(|token| &token.kind).collect();
    let (size, counted) = number(&kinds);
    let (name, mut length) = match (size, &kinds[counted..]) {
        (Some(_), [Kind::Times, Kind::Name(name), ..]) => (Some(name), counted + 2),
        (_, [Kind::Name(name), ..]) => (Some(name), counted + 1),
        (Some(_), _) => (None, counted),
        (None, _) => {
            let column = rest.first().map_or(end, |token| token.column);
            return Err(line.fault(column, "a number or a name is missing here"));
        }
    };
    let place = length - 1;
    let mut size = size.unwrap_or((1, 1));
    if let (Some(_), [Kind::Over, Kind::Number(over @ 1..), ..]) = (name, &kinds[length..]) {
        size.1 = size.1.saturating_mul(*over);
        length += 2;
    }
    if let Some(Token { kind: Kind::Times | Kind::Over, column }) = rest.get(length) {
        return Err(line.fault(*column, PRODUCT));
    }
    let (largest, what) = match name {
        Some(_) => (LARGEST_COEFFICIENT, "a coefficient is from -1000 to 1000"),
        None => (LARGEST_LIMIT, "a limit is from -30000 to 30000"),
    };
    let size = within(line, rest[0].column, size, largest, what)?;
    let signed = if sign < 0 { size.turned() } else { size };
    match name {
        Some(name) => side.terms.push(Term {
            coefficient: signed,
            name: name.clone(),
            column: rest[place].column,
            is_counted: counted > 0,
        }),
        None => side.number = sum(line, rest[0].column, side.number, signed)?,
    }
    Ok(length)
}

/// One number over another, where it is not too fine and not beyond the largest.
fn within(
    line: &Line,
    column: usize,
    (above, below): (i64, i64),
    largest: i64,
    what: &str,
) -> Result<Exact, Fault> {
    let size = Exact::fine(above, below).ok_or_else(|| line.fault(column, TOO_FINE))?;
    match size.is_beyond(largest) {
        true => Err(line.fault(column, format!("{size} is out of range: {what}"))),
        false => Ok(size),
    }
}

/// The number that these tokens are, with its sign, and nothing else.
pub fn alone(line: &Line, tokens: &[Token], written: &str) -> Result<Exact, Fault> {
    let sign = matches!(tokens.first().map(|token| &token.kind), Some(Kind::Plus | Kind::Minus));
    let is_turned = sign && tokens[0].kind == Kind::Minus;
    let rest = &tokens[usize::from(sign)..];
    let kinds: Vec<&Kind> = rest.iter().take(3).map(|token| &token.kind).collect();
    let (Some(size), length) = number(&kinds) else {
        return Err(line.fault(rest.first().map_or(line.end, |token| token.column), written));
    };
    if let Some(token) = rest.get(length) {
        let what = match token.kind {
            Kind::Name(_) => "a unit is left out, or stands in a comment",
            _ => written,
        };
        return Err(line.fault(token.column, what));
    }
    let what = "a constant is from -30000 to 30000";
    let size = within(line, rest[0].column, size, LARGEST_LIMIT, what)?;
    Ok(if is_turned { size.turned() } else { size })
}

const TOO_FINE: &str = "that is too fine: thousandths are the smallest parts of a number";

/// The sum of two numbers, where it is not too fine.
pub fn sum(line: &Line, column: usize, one: Exact, other: Exact) -> Result<Exact, Fault> {
    one.plus(other).ok_or_else(|| line.fault(column, TOO_FINE))
}

/// The number that comes first, as one over another, and how many tokens it is
/// made of.
fn number(kinds: &[&Kind]) -> (Option<(i64, i64)>, usize) {
    match kinds {
        [Kind::Number(above), Kind::Over, Kind::Number(below @ 1..), ..] => {
            (Some((*above, *below)), 3)
        }
        [Kind::Number(whole), ..] => (Some((*whole, 1)), 1),
        [Kind::Decimal(digits, ten), ..] => (Some((*digits, *ten)), 1),
        [Kind::Constant(exact), ..] => (Some((exact.numerator, exact.denominator)), 1),
        _ => (None, 0),
    }
}
