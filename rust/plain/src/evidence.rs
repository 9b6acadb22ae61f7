//! The checker, over the tableau that the solver starts from.

use crate::tableau::{Amount, Tableau, MOST_COLUMNS};
use crate::words::judged;

const LARGEST_NUMBER: i64 = 2_147_483_647;
const LARGEST_NUMERATOR: u64 = 515_396_075_280_000;
const LARGEST_SMALL: u64 = 17_179_869_176;

/// 1 to 6 and 10 by the problem, 7 for an answer that is too short, 8 for an
/// accepted answer and 9 for any other.
pub fn check(words: &[i32], answer: &[i64]) -> u32 {
    let parts = match judged(words) {
        Ok(parts) => parts,
        Err(refusal) => return refusal,
    };
    let variables = parts.n + parts.m;
    let Some(answer) = answer.get(..3 + 2 * variables) else {
        return 7;
    };
    let problem = Tableau::start(parts);
    let (first, second) = answer[3..].split_at(variables);
    let accepted = match answer[0] {
        1 => point_accepted(&problem, answer[2], first, second),
        2 => answer[2] == 0 && multipliers_accepted(&problem, first, second),
        _ => false,
    };
    if accepted {
        8
    } else {
        9
    }
}

fn point_accepted(problem: &Tableau, over: i64, plains: &[i64], smalls: &[i64]) -> bool {
    let limits = &problem.limits;
    (1..=LARGEST_NUMBER).contains(&over)
        && part_accepted(problem, plains, LARGEST_NUMERATOR)
        && (smalls.iter().all(|&small| small == 0) || part_accepted(problem, smalls, LARGEST_SMALL))
        && plains.iter().zip(smalls).enumerate().all(|(variable, (&plain, &small))| {
            let at = Amount { plain, small };
            let bound = |limit: i64| Amount { plain: limit * over, small: 0 };
            let lower =
                || clears(limits.is_lower_strict[variable], bound(limits.lower[variable]), at);
            let upper =
                || clears(limits.is_upper_strict[variable], at, bound(limits.upper[variable]));
            (!limits.has_lower[variable] || lower()) && (!limits.has_upper[variable] || upper())
        })
}

/// Whether no number is too large and each row's is its sum.
fn part_accepted(problem: &Tableau, numbers: &[i64], largest: u64) -> bool {
    numbers.iter().all(|number| number.unsigned_abs() <= largest) && rows_hold(problem, numbers)
}

/// Whether one amount is at most another, or, of a strict limit, below it.
fn clears(is_strict: bool, one: Amount, other: Amount) -> bool {
    one < other || (one == other && !is_strict)
}

fn rows_hold(problem: &Tableau, numerators: &[i64]) -> bool {
    let (own, sums) = numerators.split_at(problem.n);
    sums.iter().enumerate().all(|(row, &sum)| {
        problem.row(row).iter().zip(own).map(|(c, numerator)| c * numerator).sum::<i64>() == sum
    })
}

fn multipliers_accepted(problem: &Tableau, lower: &[i64], upper: &[i64]) -> bool {
    let limits = &problem.limits;
    let mut total = 0;
    let mut strict_named = false;
    for (variable, (&l, &u)) in lower.iter().zip(upper).enumerate() {
        let most_lower = if limits.has_lower[variable] { LARGEST_NUMBER } else { 0 };
        let most_upper = if limits.has_upper[variable] { LARGEST_NUMBER } else { 0 };
        if !(0..=most_lower).contains(&l) || !(0..=most_upper).contains(&u) {
            return false;
        }
        total += limits.lower[variable] * l - limits.upper[variable] * u;
        strict_named |= (limits.is_lower_strict[variable] && l != 0)
            | (limits.is_upper_strict[variable] && u != 0);
    }
    (total > 0 || (total == 0 && strict_named)) && columns_cancel(problem, lower, upper)
}

fn columns_cancel(problem: &Tableau, lower: &[i64], upper: &[i64]) -> bool {
    let n = problem.n;
    let mut columns = [0; MOST_COLUMNS];
    for (column, (lower, upper)) in columns.iter_mut().zip(lower.iter().zip(upper)).take(n) {
        *column = lower - upper;
    }
    for (row, (lower, upper)) in lower[n..].iter().zip(&upper[n..]).enumerate() {
        let net = lower - upper;
        for (column, coefficient) in columns.iter_mut().zip(problem.row(row)) {
            *column += net * coefficient;
        }
    }
    columns == [0; MOST_COLUMNS]
}
