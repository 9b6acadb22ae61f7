//! The evidence checker.

use crate::base::{all_below, is_pos, some_below, sum, within};
use crate::problem::{
    first, outside, problem, problem_tests, too_short, vars, word, Limit, Problem, MAX_M,
};
use crate::tableau::MAX_NUMBER;
use crate::value::{total, Values, PAIRS, WHOLE};

pub const MAX_NUMERATOR: u128 = 515_396_075_280_000;
pub const MAX_SMALL: u128 = 17_179_869_176;

pub fn verdict_of(a: &[i128]) -> i128 {
    word(a, 0)
}

pub fn over_of(a: &[i128]) -> i128 {
    word(a, 2)
}

pub fn lower_part(a: &[i128], v: usize) -> i128 {
    word(a, 3 + v)
}

pub fn upper_part(n: usize, a: &[i128], v: usize) -> i128 {
    word(a, 3 + n + v)
}

/// A numerator and its small part's.
pub fn pair_part(n: usize, a: &[i128], v: usize) -> (i128, i128) {
    (lower_part(a, v), upper_part(n, a, v))
}

/// Row i, of any values x for the variables.
pub fn row_sum<X, Y: Copy>(
    values: &Values<Y>,
    p: &Problem<X>,
    x: impl Fn(usize) -> Y,
    i: usize,
) -> Y {
    total(values, p.n, |j| (values.scale)((p.coefficient)(i, j), x(j)))
}

/// One pair is at most another, or strictly below it.
pub fn clears(strict: bool, x: (i128, i128), y: (i128, i128)) -> bool {
    if strict {
        (PAIRS.less)(x, y)
    } else {
        !(PAIRS.less)(y, x)
    }
}

/// A numerator and its small part, over d, against the plain limit.
pub fn at_least(lower: Option<Limit>, d: i128, x: (i128, i128)) -> bool {
    match lower {
        None => true,
        Some(l) => clears(l.strict, (d * l.plain, 0), x),
    }
}

pub fn at_most(upper: Option<Limit>, d: i128, x: (i128, i128)) -> bool {
    match upper {
        None => true,
        Some(u) => clears(u.strict, x, (d * u.plain, 0)),
    }
}

pub fn shows_can(p: &Problem<Limit>, a: &[i128]) -> bool {
    let d = over_of(a);
    let x = |v| lower_part(a, v);
    let y = |v| upper_part(vars(p), a, v);
    !outside(d, 1, MAX_NUMBER as i128)
        && all_below(vars(p), |v| within(MAX_NUMERATOR, x(v)))
        && all_below(vars(p), |v| within(MAX_SMALL, y(v)))
        && all_below(p.m, |i| x(p.n + i) == row_sum(&WHOLE, p, x, i))
        && all_below(p.m, |i| y(p.n + i) == row_sum(&WHOLE, p, y, i))
        && all_below(vars(p), |v| {
            at_least((p.lower)(v), d, (x(v), y(v))) && at_most((p.upper)(v), d, (x(v), y(v)))
        })
}

/// A limit's number, or 0 where it is missing.
pub fn plain_of(limit: Option<Limit>) -> i128 {
    match limit {
        None => 0,
        Some(l) => l.plain,
    }
}

pub fn fair(limit: Option<Limit>, k: i128) -> bool {
    match limit {
        None => k == 0,
        Some(_) => !outside(k, 0, MAX_NUMBER as i128),
    }
}

/// A strict limit with a multiplier other than 0.
pub fn strict_named(limit: Option<Limit>, k: i128) -> bool {
    match limit {
        None => false,
        Some(l) => l.strict && k != 0,
    }
}

pub fn column<X>(p: &Problem<X>, y: impl Fn(usize) -> i128, j: usize) -> i128 {
    y(j) + sum(p.m, |i| (p.coefficient)(i, j) * y(p.n + i))
}

/// What multipliers make of limits: lower ones added, upper ones taken away.
pub fn surplus(p: &Problem<Limit>, lo: impl Fn(usize) -> i128, up: impl Fn(usize) -> i128) -> i128 {
    sum(vars(p), |v| plain_of((p.lower)(v)) * lo(v) - plain_of((p.upper)(v)) * up(v))
}

pub fn some_strict(
    p: &Problem<Limit>,
    lo: impl Fn(usize) -> i128,
    up: impl Fn(usize) -> i128,
) -> bool {
    some_below(vars(p), |v| strict_named((p.lower)(v), lo(v)) || strict_named((p.upper)(v), up(v)))
}

/// Above 0, or 0 and a strict limit has a multiplier other than 0.
pub fn contradicts(total: i128, strict: bool) -> bool {
    is_pos(total) || (total == 0 && strict)
}

pub fn shows_cannot(p: &Problem<Limit>, a: &[i128]) -> bool {
    let lo = |v| lower_part(a, v);
    let up = |v| upper_part(vars(p), a, v);
    over_of(a) == 0
        && all_below(vars(p), |v| fair((p.lower)(v), lo(v)) && fair((p.upper)(v), up(v)))
        && all_below(p.n, |j| column(p, |v| lo(v) - up(v), j) == 0)
        && contradicts(surplus(p, lo, up), some_strict(p, lo, up))
}

pub fn accepted(p: &Problem<Limit>, a: &[i128]) -> bool {
    match verdict_of(a) {
        1 => shows_can(p, a),
        2 => shows_cannot(p, a),
        _ => false,
    }
}

pub fn checked(ws: &[i128], a: &[i128]) -> u32 {
    let mut tests = problem_tests(MAX_M, ws);
    tests.push((Box::new(|| too_short(ws, a.len())), 7));
    tests.push((Box::new(|| accepted(&problem(ws), a)), 8));
    tests.push((Box::new(|| true), 9));
    first(&tests)
}
