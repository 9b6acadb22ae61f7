//! Nothing idle in a "cannot": each limit that is named is needed.

use crate::decision::is_met;
use crate::problem::Problem;

/// A limit of a problem.
#[derive(Debug, Clone, Copy, PartialEq, Eq)]
pub struct Named {
    /// The number of its variable.
    pub variable: usize,
    /// Whether it is the lower one.
    pub lower: bool,
}

/// The limits that an answered "cannot" names: those whose multiplier is not 0.
pub fn named(words: &[i32], answer: &[i64]) -> Vec<Named> {
    let variables = (words[0] + words[1]) as usize;
    (0..variables)
        .flat_map(|variable| [(variable, true), (variable, false)])
        .filter(|&(v, lower)| answer[3 + v + if lower { 0 } else { variables }] != 0)
        .map(|(variable, lower)| Named { variable, lower })
        .collect()
}

/// The first limit that an answered "cannot" names for nothing, if it does: all
/// limits are dropped but the named ones, and of those one more, and no
/// fractions meet what is left.
pub fn idle(words: &[i32], answer: &[i64]) -> Option<Named> {
    let problem = Problem::read(words).expect("an answered problem is not refused");
    let named = named(words, answer);
    named.iter().copied().find(|&dropped| {
        let is_kept = |variable, upper: bool| {
            let limit = Named { variable, lower: !upper };
            limit != dropped && named.contains(&limit)
        };
        !is_met(&problem.keeping(is_kept))
    })
}
