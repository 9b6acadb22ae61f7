//! A line that says something: sums of names and numbers, with signs between.
//!
//! - `misleading`: what would be read as something else than was meant
//! - `side`: a sum, up to the next sign

mod misleading;
mod side;

use crate::exact::Exact;
use crate::fault::Fault;
use crate::tokens::{Kind, Line, Sign, Token};
use misleading::misleading;
use side::{alone, side, sum, Side};

/// The largest coefficient of a name.
pub const LARGEST_COEFFICIENT: i64 = 1_000;
/// The largest limit.
pub const LARGEST_LIMIT: i64 = 30_000;

/// A name with its coefficient.
#[derive(Debug, Clone)]
pub struct Term {
    pub coefficient: Exact,
    pub name: String,
    pub column: usize,
    /// Whether a number stands before the name.
    pub is_counted: bool,
}

/// What a line says, in its own numbers: that the sum of the terms is within
/// limits.
#[derive(Debug, Clone)]
pub struct Statement {
    /// In the order in which they stand in the line.
    pub terms: Vec<Term>,
    pub lower: Option<Limit>,
    pub upper: Option<Limit>,
}

#[derive(Debug, Clone, Copy)]
pub struct Limit {
    pub number: Exact,
    pub is_strict: bool,
    /// Where its sign stands.
    pub column: usize,
}

/// The statement of a line whose first tokens are left out.
pub fn statement(line: &Line, skipped: usize) -> Result<Statement, Fault> {
    let tokens = &line.tokens[skipped..];
    if let Some(fault) = misleading(line, tokens) {
        return Err(fault);
    }
    let mut signs = Vec::new();
    let mut sides = Vec::new();
    let mut rest = tokens;
    loop {
        let length = rest.iter().position(|token| matches!(token.kind, Kind::Sign(_)));
        let length = length.unwrap_or(rest.len());
        let after = rest.get(length);
        sides.push(side(line, &rest[..length], after.map_or(line.end, |token| token.column))?);
        let Some(Token { kind: Kind::Sign(sign), column }) = after else { break };
        signs.push((*sign, *column));
        rest = &rest[length + 1..];
    }
    if let Some((_, column)) = signs.get(2) {
        return Err(line.fault(*column, "a line has one sign or two: 20 <= x <= 40"));
    }
    let found = match (&signs[..], sides.len()) {
        ([(first, at), (second, column)], 3) => {
            let [low, middle, high] = <[Side; 3]>::try_from(sides).ok().expect("there are three");
            between(line, low, (*first, *at), middle, (*second, *column), high)?
        }
        ([(sign, column)], 2) => {
            let [left, right] = <[Side; 2]>::try_from(sides).ok().expect("there are two");
            compared(line, left, *sign, *column, right)?
        }
        _ => {
            let only = sides.pop().expect("there is a side");
            if only.number != Exact::ZERO {
                return Err(line.fault(
                    line.end,
                    "a sign is missing here: a sum without limits has names alone",
                ));
            }
            Statement { terms: only.terms, lower: None, upper: None }
        }
    };
    if found.terms.is_empty() {
        return Err(line.fault(tokens[0].column, "there is no name in this line"));
    }
    Ok(found)
}

/// The number that stands behind the first tokens of a line, and nothing else; how
/// it is written is told where there is none.
pub fn number(line: &Line, skipped: usize, written: &str) -> Result<Exact, Fault> {
    match misleading(line, &line.tokens[1..]) {
        Some(fault) => Err(fault),
        None => alone(line, &line.tokens[skipped..], written),
    }
}

/// Left, a sign, right: the names go to the left, the numbers to the right.
/// Where only the right has names, the two change places.
fn compared(
    line: &Line,
    left: Side,
    sign: Sign,
    column: usize,
    right: Side,
) -> Result<Statement, Fault> {
    let (left, sign, right) = match left.terms.is_empty() {
        true => (right, turned(sign), left),
        false => (left, sign, right),
    };
    let number = sum(line, column, right.number, left.number.turned())?;
    let limit = |is_strict| limit(line, number, is_strict, column).map(Some);
    let (lower, upper) = match sign {
        Sign::AtMost => (None, limit(false)?),
        Sign::AtLeast => (limit(false)?, None),
        Sign::Equal => (limit(false)?, limit(false)?),
        Sign::Below => (None, limit(true)?),
        Sign::Above => (limit(true)?, None),
    };
    let mut terms = left.terms;
    terms.extend(
        right.terms.into_iter().map(|term| Term { coefficient: term.coefficient.turned(), ..term }),
    );
    Ok(Statement { terms, lower, upper })
}

/// A number, a sum and a number, with two signs that point the same way.
fn between(
    line: &Line,
    first: Side,
    (left, left_column): (Sign, usize),
    middle: Side,
    (right, right_column): (Sign, usize),
    last: Side,
) -> Result<Statement, Fault> {
    let is_rising = |sign| matches!(sign, Sign::AtMost | Sign::Below);
    if left == Sign::Equal || right == Sign::Equal || is_rising(left) != is_rising(right) {
        return Err(line.fault(right_column, "the two signs of a line must point the same way"));
    }
    if let Some(term) = first.terms.first().or(last.terms.first()) {
        return Err(line.fault(term.column, "in a line with two signs, names stand between them"));
    }
    let is_strict = |sign| matches!(sign, Sign::Below | Sign::Above);
    let less = middle.number.turned();
    let [a, b] =
        [(first, left, left_column), (last, right, right_column)].map(|(outer, sign, column)| {
            let number = sum(line, column, outer.number, less)?;
            limit(line, number, is_strict(sign), column)
        });
    let (a, b) = (a?, b?);
    let (lower, upper) = if is_rising(left) { (a, b) } else { (b, a) };
    Ok(Statement { terms: middle.terms, lower: Some(lower), upper: Some(upper) })
}

fn limit(line: &Line, number: Exact, is_strict: bool, column: usize) -> Result<Limit, Fault> {
    if number.is_beyond(LARGEST_LIMIT) {
        let what = format!("{number} is out of range: a limit is from -30000 to 30000");
        return Err(line.fault(column, what));
    }
    Ok(Limit { number, is_strict, column })
}

fn turned(sign: Sign) -> Sign {
    match sign {
        Sign::AtMost => Sign::AtLeast,
        Sign::AtLeast => Sign::AtMost,
        Sign::Below => Sign::Above,
        Sign::Above => Sign::Below,
        Sign::Equal => Sign::Equal,
    }
}
