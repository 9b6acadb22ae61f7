//! The evidence checker. It uses the problem's words and the answer's, and
//! nothing of the run or the tableau.
//!
//! Renders "The evidence checker" of docs/RULES.md. Words of 64 bits are
//! widened first, so no sum here can be too large, whatever is handed in.

use crate::problem::{Limit, Limits, Problem, LARGEST_NUMBER};

/// The largest size of a numerator.
const LARGEST_NUMERATOR: i128 = 515_396_075_280_000;
/// The largest size of a small part's numerator.
pub const LARGEST_SMALL: i128 = 17_179_869_176;

/// 1 to 6 and 10 by the problem, 7 for an answer that is too short, 8 for an
/// accepted answer and 9 for any other.
pub fn check(words: &[i32], answer: &[i64]) -> u32 {
    let problem = match Problem::read(words) {
        Ok(problem) => problem,
        Err(refusal) => return refusal,
    };
    let Some(needed) = answer.get(..problem.answer_length()) else {
        return 7;
    };
    let numbers: Vec<i128> = needed.iter().map(|&word| i128::from(word)).collect();
    let (first, second) = numbers[3..].split_at(problem.variables());
    let accepted = match numbers[0] {
        1 => point_accepted(&problem, numbers[2], first, second),
        2 => numbers[2] == 0 && multipliers_accepted(&problem, first, second),
        _ => false,
    };
    if accepted {
        8
    } else {
        9
    }
}

/// Whether the numerators over the denominator meet every row and limit.
fn point_accepted(problem: &Problem, over: i128, plain: &[i128], small: &[i128]) -> bool {
    (1..=LARGEST_NUMBER).contains(&over)
        && plain.iter().all(|numerator| numerator.abs() <= LARGEST_NUMERATOR)
        && small.iter().all(|numerator| numerator.abs() <= LARGEST_SMALL)
        && rows_hold(problem, plain)
        && rows_hold(problem, small)
        && plain
            .iter()
            .zip(small)
            .zip(&problem.limits)
            .all(|((&plain, &small), limits)| limits_hold(limits, over, (plain, small)))
}

/// Whether each row's number is its sum.
pub fn rows_hold(problem: &Problem, numerators: &[i128]) -> bool {
    let (own, sums) = numerators.split_at(problem.n);
    problem.rows.iter().zip(sums).all(|(row, &sum)| product(row, own) == sum)
}

/// A pair over the denominator against the plain limits: strictly inside those
/// that are strict. Plain parts are compared first.
fn limits_hold(limits: &Limits, over: i128, pair: (i128, i128)) -> bool {
    let bound = |limit: Limit| (limit.plain * over, 0);
    let Limits { lower, upper } = limits;
    lower.is_none_or(|l| if l.strict { bound(l) < pair } else { bound(l) <= pair })
        && upper.is_none_or(|u| if u.strict { pair < bound(u) } else { pair <= bound(u) })
}

/// Whether the limits, each taken so many times, add up to a contradiction. What
/// cancels in every column is 0, and the limits make it at least the total, or
/// more than that where a strict one is taken.
fn multipliers_accepted(problem: &Problem, lower: &[i128], upper: &[i128]) -> bool {
    let lower_limits: Vec<Option<Limit>> = problem.limits.iter().map(|l| l.lower).collect();
    let upper_limits: Vec<Option<Limit>> = problem.limits.iter().map(|l| l.upper).collect();
    let net: Vec<i128> = lower.iter().zip(upper).map(|(lower, upper)| lower - upper).collect();
    let total = total(lower, &lower_limits) - total(upper, &upper_limits);
    multipliers_fit(lower, &lower_limits)
        && multipliers_fit(upper, &upper_limits)
        && columns_cancel(problem, &net)
        && (total > 0
            || total == 0
                && (some_strict(lower, &lower_limits) || some_strict(upper, &upper_limits)))
}

fn multipliers_fit(multipliers: &[i128], limits: &[Option<Limit>]) -> bool {
    multipliers.iter().zip(limits).all(|(multiplier, limit)| {
        (0..=LARGEST_NUMBER).contains(multiplier) && (limit.is_some() || *multiplier == 0)
    })
}

/// Whether a strict limit is taken at all.
fn some_strict(multipliers: &[i128], limits: &[Option<Limit>]) -> bool {
    let is_strict = |limit: &Option<Limit>| limit.is_some_and(|limit| limit.strict);
    multipliers.iter().zip(limits).any(|(&times, limit)| times != 0 && is_strict(limit))
}

/// Each problem variable counts for itself and in every row that has it.
fn columns_cancel(problem: &Problem, net: &[i128]) -> bool {
    let (own, of_rows) = net.split_at(problem.n);
    (0..problem.n).all(|column| {
        let coefficients: Vec<i128> = problem.rows.iter().map(|row| row[column]).collect();
        own[column] + product(&coefficients, of_rows) == 0
    })
}

/// Each limit times its multiplier, in one sum. A missing one adds nothing.
fn total(multipliers: &[i128], limits: &[Option<Limit>]) -> i128 {
    let plain = |limit: &Option<Limit>| limit.map_or(0, |limit| limit.plain);
    multipliers.iter().zip(limits).map(|(multiplier, limit)| multiplier * plain(limit)).sum()
}

fn product(one: &[i128], other: &[i128]) -> i128 {
    one.iter().zip(other).map(|(a, b)| a * b).sum()
}
