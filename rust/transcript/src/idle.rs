//! Nothing idle in a "cannot": the limits that it names are kept and all others
//! dropped; then one more is dropped.

use crate::evidence::{lower_part, upper_part};
use crate::problem::{vars, Problem};
use crate::step::Side;

/// A limit that is kept, or dropped.
pub fn kept<X>(is: bool, limit: Option<X>) -> Option<X> {
    if is {
        limit
    } else {
        None
    }
}

/// The same rows with other limits.
pub fn with_limits<'a, X>(
    lower: impl Fn(usize) -> Option<X> + 'a,
    upper: impl Fn(usize) -> Option<X> + 'a,
    p: &'a Problem<'a, X>,
) -> Problem<'a, X> {
    Problem {
        n: p.n,
        m: p.m,
        coefficient: Box::new(|i, j| (p.coefficient)(i, j)),
        lower: Box::new(lower),
        upper: Box::new(upper),
    }
}

/// An answer's multiplier of a limit of variable v, of n.
pub fn multiplier(n: usize, a: &[i128], side: Side, v: usize) -> i128 {
    match side {
        Side::Below => lower_part(a, v),
        Side::Above => upper_part(n, a, v),
    }
}

pub fn is_named(n: usize, a: &[i128], side: Side, v: usize) -> bool {
    multiplier(n, a, side, v) != 0
}

/// The limits that an answer names.
pub fn named<'a, X>(a: &'a [i128], p: &'a Problem<'a, X>) -> Problem<'a, X> {
    let is = move |side, v| is_named(vars(p), a, side, v);
    with_limits(
        move |v| kept(is(Side::Below, v), (p.lower)(v)),
        move |v| kept(is(Side::Above, v), (p.upper)(v)),
        p,
    )
}

/// One limit less.
pub fn without<'a, X>(side: Side, v: usize, p: &'a Problem<'a, X>) -> Problem<'a, X> {
    with_limits(
        move |w| kept(side != Side::Below || w != v, (p.lower)(w)),
        move |w| kept(side != Side::Above || w != v, (p.upper)(w)),
        p,
    )
}
