//! An answer to time rows as text, and its words.

use super::{divisor, fraction, opened, LARGEST};
use crate::fault::Fault;
use crate::limits::Side;
use crate::numbers;
use crate::times::Times;
use crate::tokens::{Kind, Line, Sign};

/// An answer to time rows that somebody hands in.
#[derive(Debug, Clone, PartialEq, Eq)]
pub struct TimesAnswer {
    /// Its words, as the checker of time rows takes them.
    pub words: Vec<i64>,
    /// How many small amounts make up a part of a minute; none where it is bare
    /// numbers, and the amount is as small as one likes.
    pub small: Option<i64>,
}

/// Reads an answer to these rows: bare numbers, or `can` with a time for each
/// name, or `cannot` with rows that lead round.
///
/// Fractions of a part go into the small parts of the words. That changes no
/// verdict: a row's number is whole in parts, so two times are as far apart as it
/// allows just if the whole parts are and, where these come to it exactly, what is
/// left over.
///
/// # Errors
///
/// The first fault, with line and column.
pub fn read_times(text: &str, rows: &Times) -> Result<TimesAnswer, Fault> {
    if numbers::are_bare(text) {
        return Ok(TimesAnswer { words: numbers::read(text)?, small: None });
    }
    let (first, rest) = opened(text)?;
    let rest: Vec<Line> = rest.into_iter().map(Line::with_minutes).collect();
    if first.begins_with("can") {
        can(&rest, rest.last().unwrap_or(&first), rows)
    } else {
        Ok(TimesAnswer { words: cannot(&rest, rows)?, small: None })
    }
}

const TIME: &str = "here stands a name, =, and its time: x = 30, x = 7/2 or x = 06:30";

fn can(lines: &[Line], end: &Line, rows: &Times) -> Result<TimesAnswer, Fault> {
    let mut times: Vec<Option<(i128, i128)>> = vec![None; rows.names.len()];
    let mut over: i128 = 1;
    for line in lines {
        let column = line.tokens[0].column;
        let (Some(name), Some(Kind::Sign(Sign::Equal))) =
            (line.first_name(), line.tokens.get(1).map(|token| &token.kind))
        else {
            return Err(line.fault(column, TIME));
        };
        let Some(number) = rows.names.iter().position(|other| other == name) else {
            return Err(line.fault(column, format!("{name} is no name of the rows")));
        };
        if times[number].is_some() {
            return Err(line.fault(column, format!("{name} has a time already")));
        }
        let (above, below) = fraction(line, &line.tokens[2..], TIME)?;
        let above = above * i128::from(rows.parts);
        let common = divisor(above.abs(), below);
        let (above, below) = (above / common, below / common);
        over = over / divisor(over, below) * below;
        if over > LARGEST {
            let what = "over one denominator these fractions are too large";
            return Err(line.fault(column, what));
        }
        times[number] = Some((above, below));
    }
    let (mut whole, mut left) = (Vec::new(), Vec::new());
    for (name, time) in rows.names.iter().zip(times) {
        let Some((above, below)) = time else {
            return Err(end.fault(end.end, format!("{name} has no time")));
        };
        let parts = i64::try_from(above.div_euclid(below));
        whole.push(parts.map_err(|_| end.fault(end.end, "a time is too large for the checker"))?);
        left.push((above.rem_euclid(below) * (over / below)) as i64);
    }
    let words = [vec![1, whole.len() as i64], whole, left].concat();
    Ok(TimesAnswer { words, small: Some(over as i64) })
}

const ROW: &str = "here stands a row: line 3, line 3 upper, or row 4";

fn cannot(lines: &[Line], rows: &Times) -> Result<Vec<i64>, Fault> {
    let mut words = vec![2, lines.len() as i64];
    for line in lines {
        let kinds: Vec<&Kind> = line.tokens.iter().map(|token| &token.kind).collect();
        let row = match &kinds[..] {
            [Kind::Name(word), Kind::Number(number)] if word == "row" => {
                let number = usize::try_from(*number).ok();
                let found = number.filter(|&number| number < rows.rows.len());
                found.ok_or_else(|| "there is no such row".to_string())
            }
            [Kind::Name(word), Kind::Number(number), side @ ..] if word == "line" => {
                of_line(rows, *number, side)
            }
            [Kind::Name(label), side @ ..] => match rows.labels.line_of(label) {
                Some(number) => of_line(rows, number as i64, side),
                None => Err(ROW.to_string()),
            },
            _ => Err(ROW.to_string()),
        };
        words.push(row.map_err(|what| line.fault(line.tokens[0].column, what))? as i64);
    }
    let least = 2 + 2 * rows.names.len();
    words.resize(words.len().max(least), 0);
    Ok(words)
}

/// The row that a line makes; where it makes two, the one that is named.
fn of_line(rows: &Times, line: i64, side: &[&Kind]) -> Result<usize, String> {
    let named = match side {
        [] => None,
        [Kind::Name(name)] => {
            let side = Side::BOTH.into_iter().find(|side| side.name() == name);
            Some(side.ok_or_else(|| ROW.to_string())?)
        }
        _ => return Err(ROW.to_string()),
    };
    let made = rows.of_line(usize::try_from(line).unwrap_or_default());
    let meant = |&&row: &&usize| named.is_none_or(|side| side == rows.rows[row].side());
    let meant: Vec<&usize> = made.iter().filter(meant).collect();
    match meant[..] {
        [&one] => Ok(one),
        [] => Err(format!("line {line} of the rows makes no such row")),
        _ => Err(format!("line {line} of the rows makes two: say lower or upper")),
    }
}
