//! What a "can" with small parts stands for: actual fractions.
//!
//! 1 / 17,179,869,177 is put for the small amount. All is taken that many times,
//! so that the numbers are whole.

use crate::evidence::{rows_hold, LARGEST_SMALL};
use crate::problem::{Limit, Limits, Problem};

/// How many of the small amount are 1.
const SMALL_AMOUNTS: i128 = LARGEST_SMALL + 1;

/// Whether an answered "can" gives fractions that meet every row and every
/// limit of the problem, a strict one strictly. Words that are no problem, and
/// answers that are no "can" or too short, do not.
pub fn meets(words: &[i32], answer: &[i64]) -> bool {
    let Ok(problem) = Problem::read(words) else {
        return false;
    };
    let Some(needed) = answer.get(..problem.answer_length()) else {
        return false;
    };
    let numbers: Vec<i128> = needed.iter().map(|&word| i128::from(word)).collect();
    let (plain, small) = numbers[3..].split_at(problem.variables());
    numbers[0] == 1 && numbers[2] > 0 && holds(&problem, numbers[2], plain, small)
}

/// Whether the numerators over a denominator above 0 give such fractions.
pub fn holds(problem: &Problem, over: i128, plain: &[i128], small: &[i128]) -> bool {
    let over = SMALL_AMOUNTS * over;
    let fractions = plain.iter().zip(small).map(|(plain, small)| SMALL_AMOUNTS * plain + small);
    let fractions: Vec<i128> = fractions.collect();
    let bound = |limit: Limit| limit.plain * over;
    rows_hold(problem, &fractions)
        && fractions.iter().zip(&problem.limits).all(|(&x, Limits { lower, upper })| {
            lower.is_none_or(|l| if l.strict { bound(l) < x } else { bound(l) <= x })
                && upper.is_none_or(|u| if u.strict { x < bound(u) } else { x <= bound(u) })
        })
}
