//! An answer put back into the text's own numbers, decimals and fractions among
//! them, before it is shown: what the words were made of, and not the words.

use crate::clash;
use crate::problem::Values;
use finder::Whole;
use scatterflock::WideVerdict;
use text::limits::{Limits, Own, Side};
use text::Exact;

/// A fraction: numerator, and a denominator above 0. No number is too large.
type Fraction = (Whole, Whole);

/// Whether the answer is right in the text's own numbers. A problem that comes
/// from words has none but these, which the checker has looked at.
pub fn agrees(problem: &Limits, verdict: &Option<WideVerdict>) -> bool {
    match verdict {
        Some(WideVerdict::Can { .. }) => Values::of(problem, verdict)
            .is_some_and(|values| problem.said.iter().all(|own| is_met(own, values))),
        Some(WideVerdict::Cannot { lower, upper }) => {
            problem.said.is_empty() || is_contradiction(problem, [lower, upper]) == Some(true)
        }
        None => true,
    }
}

/// Whether the values meet what a line says.
fn is_met(own: &Own, values: Values) -> bool {
    let over = &Whole::from(values.over) * &Whole::from(values.problem.parts);
    let [plain, small] = [values.plain, values.small].map(|part| {
        let terms = own.coefficients.iter().zip(part);
        let terms = terms.map(|(coefficient, value)| {
            product(&fraction(*coefficient), &(Whole::from(*value), over.clone()))
        });
        terms.fold(none(), |sum, term| plus(&sum, &term))
    });
    Side::BOTH.into_iter().zip(own.limits).all(|(side, limit)| {
        let Some((number, is_strict)) = limit else { return true };
        let (number, over) = fraction(number);
        let (above, _) = plus(&plain, &(-number, over));
        let out = if side == Side::Lower { 1 } else { -1 };
        let inside = match above.sign() {
            0 => out * small.0.sign(),
            sign => out * sign,
        };
        inside >= i32::from(is_strict)
    })
}

/// Whether the limits of the lines, so many times each, add up to a contradiction.
fn is_contradiction(problem: &Limits, multipliers: [&[i128]; 2]) -> Option<bool> {
    let mut left = vec![none(); problem.names.len()];
    let mut right = none();
    let mut has_strict = false;
    for (variable, side, times) in clash::multipliers(problem, multipliers) {
        let line = problem.limits[variable][side as usize]?.line?;
        let own = problem.said.iter().find(|own| own.line == line)?;
        let (factor, is_turned) = factor(own, &words_of(problem, variable))?;
        let own_side = if is_turned { 1 - side as usize } else { side as usize };
        let (number, is_strict) = own.limits[own_side]?;
        let out = if own_side == Side::Lower as usize { 1 } else { -1 };
        let by = product(&factor, &(Whole::from(out * times), Whole::from(1)));
        for (sum, coefficient) in left.iter_mut().zip(&own.coefficients) {
            *sum = plus(sum, &product(&by, &fraction(*coefficient)));
        }
        right = plus(&right, &product(&by, &fraction(number)));
        has_strict |= is_strict;
    }
    let cancels = left.iter().all(|sum| sum.0.sign() == 0);
    Some(cancels && right.0.sign() >= i32::from(!has_strict))
}

/// The coefficients of a variable or a row in the words.
fn words_of(problem: &Limits, variable: usize) -> Vec<i32> {
    let row = variable.checked_sub(problem.names.len());
    row.map_or_else(|| problem.coefficients(variable), |row| problem.rows[row].clone())
}

/// How many times a line is taken in the words, in size, and whether it is turned
/// round there. The same for each of its names, or the line is another one.
fn factor(own: &Own, words: &[i32]) -> Option<(Fraction, bool)> {
    let mut found: Option<Fraction> = None;
    for (coefficient, &number) in own.coefficients.iter().zip(words) {
        if (coefficient.numerator == 0) != (number == 0) {
            return None;
        }
        if number != 0 {
            let (above, below) = fraction(*coefficient);
            let signed = if above.sign() < 0 { -below } else { below };
            let ratio = lowest(&Whole::from(number) * &signed, above.size());
            if found.as_ref().is_some_and(|found| *found != ratio) {
                return None;
            }
            found = Some(ratio);
        }
    }
    let (above, below) = found?;
    Some(((above.size(), below), above.sign() < 0))
}

fn none() -> Fraction {
    (Whole::ZERO, Whole::from(1))
}

fn fraction(number: Exact) -> Fraction {
    (number.numerator.into(), number.denominator.into())
}

fn lowest(above: Whole, below: Whole) -> Fraction {
    let common = above.divisor(&below);
    (above.divided(&common).0, below.divided(&common).0)
}

fn product(one: &Fraction, other: &Fraction) -> Fraction {
    lowest(&one.0 * &other.0, &one.1 * &other.1)
}

fn plus(one: &Fraction, other: &Fraction) -> Fraction {
    lowest(&(&one.0 * &other.1) + &(&other.0 * &one.1), &one.1 * &other.1)
}
