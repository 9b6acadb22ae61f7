//! An answer to a limit problem as text, and its words.
//!
//! - `of_times`: an answer to time rows

mod of_times;

pub use of_times::{read_times, TimesAnswer};

use crate::exact::{self, multiple};
use crate::fault::Fault;
use crate::limits::{Limits, Side};
use crate::numbers;
use crate::tokens::{lines, Kind, Line, Sign, Token};

/// The largest denominator and multiplier that the checker takes.
const LARGEST: i128 = 2_147_483_647;

/// The word for the small amount, in a value.
pub const SMALL: &str = "small";

/// Reads an answer to this problem: bare numbers, or `can` with a value for
/// each name, or `cannot` with multipliers. What comes back are the words that
/// the checker takes.
///
/// # Errors
///
/// The first fault, with line and column.
pub fn read(text: &str, problem: &Limits) -> Result<Vec<i64>, Fault> {
    if numbers::are_bare(text) {
        return numbers::read(text);
    }
    let (first, rest) = opened(text)?;
    let end = rest.last().unwrap_or(&first);
    if first.begins_with("can") {
        can(&rest, end, problem)
    } else {
        cannot(&rest, problem)
    }
}

/// The line `can` or `cannot` of an answer, and the lines behind it.
fn opened(text: &str) -> Result<(Line, Vec<Line>), Fault> {
    let mut all = lines(text);
    let Some(first) = all.next() else {
        return Err(Fault::new(1, 1, "there is no answer in this text"));
    };
    let first = first?;
    if first.tokens.len() != 1 || !(first.begins_with("can") || first.begins_with("cannot")) {
        let what = "an answer begins with a line can or cannot";
        return Err(first.fault(first.tokens[0].column, what));
    }
    Ok((first, all.collect::<Result<Vec<Line>, Fault>>()?))
}

fn can(lines: &[Line], end: &Line, problem: &Limits) -> Result<Vec<i64>, Fault> {
    let mut values: Vec<Option<Value>> = vec![None; problem.names.len()];
    let mut over: i128 = 1;
    for line in lines {
        let [first, equal, value @ ..] = &line.tokens[..] else {
            return Err(line.fault(line.tokens[0].column, PLACE));
        };
        let (Kind::Name(name), Kind::Sign(Sign::Equal)) = (&first.kind, &equal.kind) else {
            return Err(line.fault(line.tokens[0].column, PLACE));
        };
        let column = &first.column;
        let Some(number) = problem.names.iter().position(|other| other == name) else {
            return Err(line.fault(*column, format!("{name} is no name of the problem")));
        };
        if values[number].is_some() {
            return Err(line.fault(*column, format!("{name} has a value already")));
        }
        let value = self::value(line, value)?.map(|(above, below)| {
            let above = above * i128::from(problem.parts);
            let common = divisor(above.abs(), below);
            (above / common, below / common)
        });
        for (_, denominator) in value {
            over = over / divisor(over, denominator) * denominator;
            if over > LARGEST {
                let what = "over one denominator these fractions are too large for the checker";
                return Err(line.fault(*column, what));
            }
        }
        values[number] = Some(value);
    }
    let mut parts = [Vec::new(), Vec::new()];
    for (name, value) in problem.names.iter().zip(values) {
        let Some(value) = value else {
            return Err(end.fault(end.end, format!("{name} has no value")));
        };
        for (part, (numerator, denominator)) in parts.iter_mut().zip(value) {
            part.push(numerator * (over / denominator));
        }
    }
    let mut words = vec![1, 0, over as i64];
    for mut part in parts {
        for row in &problem.rows {
            let terms = row.iter().zip(&part);
            part.push(terms.map(|(coefficient, value)| i128::from(*coefficient) * value).sum());
        }
        for numerator in part {
            let word = i64::try_from(numerator);
            let what = "a value is too large for the checker";
            words.push(word.map_err(|_| end.fault(end.end, what))?);
        }
    }
    Ok(words)
}

const PLACE: &str = "here stands a name, =, and its value: x = 7/2";

/// The plain part of a value, and how often it has the small amount: each a
/// numerator and a denominator.
type Value = [(i128, i128); 2];

const VALUE: &str = "a value is a number or a fraction: 7/2, or 7/2 - 3/4 small";

/// A fraction, and behind a sign how many small amounts there are.
fn value(line: &Line, tokens: &[Token]) -> Result<Value, Fault> {
    let is_sign = |token: &Token| matches!(token.kind, Kind::Plus | Kind::Minus);
    let Some(at) = tokens.iter().skip(1).position(is_sign).map(|at| at + 1) else {
        return Ok([fraction(line, tokens, VALUE)?, (0, 1)]);
    };
    let plain = fraction(line, &tokens[..at], VALUE)?;
    let (sign, amounts) = (&tokens[at], &tokens[at + 1..]);
    let small = match amounts.split_last() {
        Some((Token { kind: Kind::Name(name), .. }, times)) if name == SMALL => times,
        _ => return Err(line.fault(tokens[0].column, VALUE)),
    };
    let (numerator, denominator) = match small {
        [] => (1, 1),
        times if is_sign(&times[0]) => return Err(line.fault(times[0].column, VALUE)),
        times => fraction(line, times, VALUE)?,
    };
    let signed = if sign.kind == Kind::Minus { -numerator } else { numerator };
    Ok([plain, (signed, denominator)])
}

/// A whole number, or one over another that is above 0. What else stands there is
/// told.
fn fraction(line: &Line, tokens: &[Token], what: &str) -> Result<(i128, i128), Fault> {
    let kinds: Vec<&Kind> = tokens.iter().map(|token| &token.kind).collect();
    let (is_negative, kinds) = match kinds[..] {
        [Kind::Minus, ..] => (true, &kinds[1..]),
        _ => (false, &kinds[..]),
    };
    let (numerator, denominator) = match kinds {
        [Kind::Number(numerator)] => (*numerator, 1),
        [Kind::Decimal(digits, ten)] => (*digits, *ten),
        [Kind::Number(numerator), Kind::Over, Kind::Number(denominator)] if *denominator > 0 => {
            (*numerator, *denominator)
        }
        _ => {
            let column = tokens.first().map_or(line.end, |token| token.column);
            return Err(line.fault(column, what));
        }
    };
    let numerator = i128::from(if is_negative { -numerator } else { numerator });
    let denominator = i128::from(denominator);
    let common = divisor(numerator.abs(), denominator);
    Ok((numerator / common, denominator / common))
}

fn divisor(a: i128, b: i128) -> i128 {
    if b == 0 {
        a
    } else {
        divisor(b, a % b)
    }
}

fn cannot(lines: &[Line], problem: &Limits) -> Result<Vec<i64>, Fault> {
    let count = problem.limits.len();
    let mut words = vec![0; 3 + 2 * count];
    words[0] = 2;
    for line in lines {
        let kinds: Vec<&Kind> = line.tokens.iter().map(|token| &token.kind).collect();
        let column = |place: usize| line.tokens.get(place).map_or(line.end, |token| token.column);
        let [Kind::Number(times), Kind::Name(by), rest @ ..] = &kinds[..] else {
            return Err(line.fault(column(0), MULTIPLIER));
        };
        if by != "times" {
            return Err(line.fault(column(1), MULTIPLIER));
        }
        let (variable, side) = match rest {
            [Kind::Name(word), Kind::Number(number), side @ ..] if word == "line" => {
                of_line(problem, *number, side).map_err(|what| line.fault(column(2), what))?
            }
            [Kind::Name(label), side @ ..] if problem.labels.line_of(label).is_some() => {
                let line_of = problem.labels.line_of(label).unwrap_or_default() as i64;
                of_line(problem, line_of, side).map_err(|what| line.fault(column(2), what))?
            }
            [Kind::Name(side), Kind::Number(variable)] => {
                let side = Side::BOTH.into_iter().find(|other| other.name() == side);
                let side = side.ok_or_else(|| line.fault(column(2), MULTIPLIER))?;
                let variable = usize::try_from(*variable).ok().filter(|&number| number < count);
                (variable.ok_or_else(|| line.fault(column(3), "there is no such variable"))?, side)
            }
            _ => return Err(line.fault(column(2), MULTIPLIER)),
        };
        let word = &mut words[3 + count * side as usize + variable];
        if *word != 0 {
            return Err(line.fault(column(0), "this limit has its multiplier already"));
        }
        *word = *times;
    }
    of_the_words(problem, &mut words);
    Ok(words)
}

/// Multipliers of what is shown, as multipliers of the words: those of a row that
/// is taken several times there are smaller by that, and all of them so many times
/// that they are whole.
fn of_the_words(problem: &Limits, words: &mut [i64]) {
    let count = problem.limits.len();
    let times = |place: usize| problem.times(place % count);
    let used = words[3..].iter().enumerate().filter(|(_, word)| **word != 0);
    let all = used.fold(1, |all, (place, _)| multiple(all, times(place)));
    if all == 1 {
        return;
    }
    for (place, word) in words[3..].iter_mut().enumerate() {
        *word = word.saturating_mul(all / times(place));
    }
    let common = words[3..].iter().fold(0, |common, word| exact::divisor(common, word.abs()));
    words[3..].iter_mut().for_each(|word| *word /= common.max(1));
}

const MULTIPLIER: &str =
    "here stands a multiplier: 2 times line 3, 2 times line 3 upper, or 2 times upper 4";

/// The limit that a line of the problem sets; where it sets two, the one that
/// is named.
fn of_line(problem: &Limits, line: i64, side: &[&Kind]) -> Result<(usize, Side), String> {
    let named = match side {
        [] => None,
        [Kind::Name(name)] => {
            let side = Side::BOTH.into_iter().find(|side| side.name() == name);
            Some(side.ok_or_else(|| MULTIPLIER.to_string())?)
        }
        _ => return Err(MULTIPLIER.to_string()),
    };
    let set: Vec<(usize, Side)> = (0..problem.limits.len())
        .flat_map(|variable| Side::BOTH.map(|side| (variable, side)))
        .filter(|(variable, side)| {
            let limit = problem.limits[*variable][*side as usize];
            limit.and_then(|limit| limit.line) == usize::try_from(line).ok()
                && limit.is_some()
                && named.is_none_or(|named| named == *side)
        })
        .collect();
    match set[..] {
        [one] => Ok(one),
        [] => Err(format!("line {line} of the problem sets no such limit")),
        _ => Err(format!("line {line} of the problem sets two limits: say lower or upper")),
    }
}
