//! Timing: every contender in turn on a few problems, then on the next few,
//! many rounds long.
//!
//! Who goes second over the same problems comes out up to 3 % faster, so each
//! round begins with the next contender: of two, each goes first in every other
//! round, and a ratio does not depend on the order that they are listed in.
//!
//! The least time of each few problems counts. They take less than a slice of
//! the machine's time, so that other work beside hardly shows in the least.

use crate::contenders::Contender;
use crate::sets::{LimitSet, TimeSet, ANSWER};
use std::hint::black_box;
use std::ops::Range;
use std::time::Instant;

pub const ROUNDS: usize = 60;
/// How many problems are timed at once.
const FEW: usize = 20;

/// ns a problem of each contender.
pub fn solve(contenders: &[Contender], set: &LimitSet) -> Vec<f64> {
    interleaved(contenders, set.problems.len(), |contender, few| {
        let mut out = [0; ANSWER];
        for words in &set.problems[few] {
            black_box((contender.solve)(black_box(words), black_box(&mut out)));
        }
    })
}

/// ns a problem of each contender.
pub fn check(contenders: &[Contender], set: &LimitSet) -> Vec<f64> {
    interleaved(contenders, set.problems.len(), |contender, few| {
        for (words, answer) in set.problems[few.clone()].iter().zip(&set.answers[few]) {
            black_box((contender.check)(black_box(words), black_box(answer)));
        }
    })
}

/// ns a problem of each contender.
pub fn times(contenders: &[Contender], set: &TimeSet) -> Vec<f64> {
    interleaved(contenders, set.problems.len(), |contender, few| {
        let mut out = [0; 130];
        for words in &set.problems[few] {
            black_box((contender.times)(black_box(words), black_box(&mut out)));
        }
    })
}

/// ns a problem of each contender, whatever it does with them.
pub fn interleaved<C>(
    contenders: &[C],
    problems: usize,
    pass: impl Fn(&C, Range<usize>),
) -> Vec<f64> {
    let mut least = vec![vec![f64::INFINITY; contenders.len()]; problems.div_ceil(FEW)];
    for round in 0..ROUNDS {
        for (part, least) in least.iter_mut().enumerate() {
            let few = part * FEW..problems.min((part + 1) * FEW);
            for turn in 0..contenders.len() {
                let at = (round + turn) % contenders.len();
                let start = Instant::now();
                pass(&contenders[at], few.clone());
                least[at] = least[at].min(start.elapsed().as_nanos() as f64);
            }
        }
    }
    let mean = |at: usize| least.iter().map(|least| least[at]).sum::<f64>() / problems as f64;
    (0..contenders.len()).map(mean).collect()
}
