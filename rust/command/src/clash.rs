//! Limits that clash, each as "at least" and so many times, and their sum.

use crate::fraction::{Fraction, Pair};
use crate::problem::all_limits;
use text::limits::{Limits, Side};

/// A limit of a clash, by its variable and side, and how many times it counts as
/// it is shown.
pub type Counted = (usize, Side, i128);

/// A limit as "at least", so many times: a sum, a sign and a number.
pub struct AtLeast {
    pub left: String,
    pub sign: &'static str,
    pub right: Fraction,
}

/// The limits that count, with the multipliers of the words.
pub fn multipliers(problem: &Limits, multipliers: [&[i128]; 2]) -> Vec<Counted> {
    let all = all_limits(problem).into_iter();
    let all = all.map(|(variable, side)| (variable, side, multipliers[side as usize][variable]));
    all.filter(|(_, _, times)| *times != 0).collect()
}

/// The limits that count, with the multipliers of what is shown: those of the
/// words, but for rows that are taken several times there and are shown once.
pub fn counted(problem: &Limits, multipliers: [&[i128]; 2]) -> Vec<Counted> {
    let words = |(variable, side): (usize, Side)| multipliers[side as usize][variable];
    let limits = || all_limits(problem).into_iter().filter(|&limit| words(limit) != 0);
    let shown = |limit: (usize, Side)| words(limit) * i128::from(problem.times(limit.0));
    let common =
        |of: &dyn Fn((usize, Side)) -> i128| limits().fold(0, |all, at| divisor(all, of(at)));
    let less = common(&shown) / common(&words).max(1);
    limits().map(|limit| (limit.0, limit.1, shown(limit) / less.max(1))).collect()
}

fn divisor(a: i128, b: i128) -> i128 {
    if b == 0 {
        a
    } else {
        divisor(b, a % b)
    }
}

/// Each limit as "at least", so many times, and what they come to.
pub fn added_up(problem: &Limits, counted: &[Counted]) -> (Vec<AtLeast>, AtLeast) {
    let each: Vec<AtLeast> = counted.iter().map(|&limit| at_least(problem, limit)).collect();
    let is_strict = each.iter().any(|limit| limit.sign == ">");
    let sum = AtLeast {
        left: problem.sum(&left_sum(problem, counted)),
        sign: if is_strict { ">" } else { ">=" },
        right: each.iter().fold(Fraction::new(0, 1), |sum, limit| sum.plus(limit.right)),
    };
    (each, sum)
}

fn at_least(problem: &Limits, (variable, side, times): Counted) -> AtLeast {
    let limit = problem.limits[variable][side as usize];
    let number = number(problem, variable, side);
    let left = problem.sum(&left_sum(problem, &[(variable, side, times)]));
    let signed = if side == Side::Lower { times } else { -times };
    let sign = limit.map_or(">=", |limit| limit.sign(Side::Lower));
    AtLeast { left, sign, right: number.times(signed) }
}

/// What the left sides come to, as "at least" and so many times each.
pub fn left_sum(problem: &Limits, counted: &[Counted]) -> Vec<i128> {
    let mut sum = vec![0; problem.names.len()];
    for &(variable, side, times) in counted {
        let signed = if side == Side::Lower { times } else { -times };
        for (sum, coefficient) in sum.iter_mut().zip(problem.coefficients(variable)) {
            *sum += signed * i128::from(coefficient);
        }
    }
    sum
}

/// Each limit as "at least", and below a rule what they come to.
pub fn sum_text(problem: &Limits, counted: &[Counted]) -> String {
    let (each, sum) = added_up(problem, counted);
    let all = || each.iter().chain([&sum]);
    let wide = all().map(|limit| limit.left.chars().count()).max().unwrap_or(0);
    let right_wide = all().map(|limit| limit.right.as_text().len()).max().unwrap_or(0);
    let line = |AtLeast { left, sign, right }: &AtLeast| {
        format!("#   {left:>wide$} {sign:<2} {}\n", right.as_text())
    };
    let lines: String = each.iter().map(line).collect();
    format!("{lines}#   {}\n{}", "-".repeat(wide + 4 + right_wide), line(&sum))
}

/// What a limit of a clash has to be loosened to, so that the clash is over: its
/// number, farther out by the whole of the sum over its multiplier. Where the sum
/// is strict it has to be more than that.
pub fn loosened(problem: &Limits, (variable, side, times): Counted, sum: &AtLeast) -> Pair {
    let out = if side == Side::Lower { -1 } else { 1 };
    let by = sum.right.times(out).part(times);
    let beyond = if sum.sign == ">" { out } else { 0 };
    Pair { plain: number(problem, variable, side).plus(by), small: Fraction::new(beyond, 1) }
}

/// The number of a limit.
fn number(problem: &Limits, variable: usize, side: Side) -> Fraction {
    problem.limit(variable, side).map_or(Fraction::new(0, 1), Fraction::from)
}

/// How an answer names a limit: by its line, with the side where the line sets
/// two, or by its variable where there is no text.
pub fn reference(problem: &Limits, variable: usize, side: Side) -> String {
    let line = problem.limits[variable][side as usize].and_then(|limit| limit.line);
    let Some(line) = line else { return format!("{} {variable}", side.name()) };
    let same = |other: &&(usize, Side)| {
        problem.limits[other.0][other.1 as usize].is_some_and(|other| other.line == Some(line))
    };
    let label = problem.labels.of_line(line);
    let named = label.map_or_else(|| format!("line {line}"), str::to_string);
    match all_limits(problem).iter().filter(same).count() {
        1 => named,
        _ => format!("{named} {}", side.name()),
    }
}
