//! The implementations that are measured.

use scatterflock::raw;

/// An implementation: its three functions.
pub struct Contender {
    pub name: &'static str,
    pub solve: fn(&[i32], &mut [i64]) -> u32,
    pub check: fn(&[i32], &[i64]) -> u32,
    pub times: fn(&[i32], &mut [i64]) -> u32,
}

const PLAIN: Contender =
    Contender { name: "plain", solve: plain::solve, check: plain::check, times: plain::times };

const ARCHIVE: Contender =
    Contender { name: "scatterflock", solve: raw::solve, check: raw::check, times: raw::times };

/// The first is the yardstick that the others' ratios are taken to.
pub const CONTENDERS: &[Contender] = &[PLAIN, ARCHIVE];
