//! What evidence means of actual fractions.

use crate::base::all_below;
use crate::evidence::{over_of, pair_part, row_sum};
use crate::problem::{vars, Limit, Problem};
use crate::value::WHOLE;

/// k times a pair's value where e / k is put for the small amount.
pub fn mixed(e: i128, k: i128, x: (i128, i128)) -> i128 {
    k * x.0 + e * x.1
}

pub fn clears(strict: bool, a: i128, b: i128) -> bool {
    if strict {
        a < b
    } else {
        a <= b
    }
}

pub fn above(lower: Option<Limit>, d: i128, x: i128) -> bool {
    match lower {
        None => true,
        Some(l) => clears(l.strict, d * l.plain, x),
    }
}

pub fn below(upper: Option<Limit>, d: i128, x: i128) -> bool {
    match upper {
        None => true,
        Some(u) => clears(u.strict, x, d * u.plain),
    }
}

/// The fractions x v / d meet the rows and all limits, a strict one strictly.
pub fn satisfies(p: &Problem<Limit>, d: i128, x: impl Fn(usize) -> i128 + Copy) -> bool {
    0 < d
        && all_below(p.m, |i| x(p.n + i) == row_sum(&WHOLE, p, x, i))
        && all_below(vars(p), |v| above((p.lower)(v), d, x(v)))
        && all_below(vars(p), |v| below((p.upper)(v), d, x(v)))
}

/// The fractions of an answer, with e / k for the small amount, meet the problem.
pub fn met_with(p: &Problem<Limit>, a: &[i128], e: i128, k: i128) -> bool {
    satisfies(p, k * over_of(a), |v| mixed(e, k, pair_part(vars(p), a, v)))
}
