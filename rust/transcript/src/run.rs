//! The run, and the answer's words.

use crate::base::{lowest, table};
use crate::problem::{inner, problem, vars, Problem};
use crate::step::{den, leaving, same, scaled, start, step, Leaving, Outcome, State};
use crate::value::{Values, PAIRS};

/// In how many ways j can be chosen of k: 1 where j is 0, 0 where only k is,
/// else the choices of one less with and without the last.
pub fn choose(k: usize, j: usize) -> u128 {
    let mut ways = vec![0; j + 1];
    ways[0] = 1;
    for _ in 0..k {
        for i in (0..j).rev() {
            ways[i + 1] += ways[i];
        }
    }
    ways[j]
}

pub fn bound<X>(p: &Problem<X>) -> u128 {
    3_u128.pow(p.n as u32) * choose(vars(p), p.n)
}

/// How it ended, the pivots completed, and the last state. How it ended is
/// `Goes` only where the fuel ran out.
pub struct Ending<X> {
    pub how: Outcome<X>,
    pub pivots: i128,
    pub last: State<X>,
}

pub fn run<X: Copy>(
    values: &Values<X>,
    fuel: u128,
    p: &Problem<X>,
    s: State<X>,
    k: i128,
) -> Ending<X> {
    match step(values, p, &s) {
        Outcome::Goes(t) if fuel > 0 => run(values, fuel - 1, p, t, k + 1),
        how => Ending { how, pivots: k, last: s },
    }
}

pub fn crossed<X: Copy>(values: &Values<X>, lower: Option<X>, upper: Option<X>) -> bool {
    match (lower, upper) {
        (Some(l), Some(u)) => (values.less)(u, l),
        _ => false,
    }
}

pub fn conflict<X: Copy>(values: &Values<X>, p: &Problem<X>) -> Option<usize> {
    lowest(vars(p), |v| crossed(values, (p.lower)(v), (p.upper)(v)).then_some(v))
}

/// The ending of a check of P from the state s.
pub fn ending<X: Copy>(values: &Values<X>, p: &Problem<X>, s: State<X>) -> Ending<X> {
    match conflict(values, p) {
        Some(v) => {
            let only = table(vars(p), |w| same(v, w));
            Ending { how: Outcome::Cannot(only.clone(), only), pivots: 0, last: s }
        }
        None => run(values, bound(p), p, s, 0),
    }
}

pub fn words_of(p: &Problem<(i128, i128)>, e: &Ending<(i128, i128)>) -> Vec<i128> {
    let n = vars(p);
    let zeros = vec![0; 2 * n];
    match &e.how {
        Outcome::Can => {
            let plain = table(n, |v| scaled(&PAIRS, p, &e.last, v).0);
            let small = table(n, |v| scaled(&PAIRS, p, &e.last, v).1);
            [&[1, e.pivots, den(&e.last)], &plain[..], &small[..]].concat()
        }
        Outcome::Cannot(lowers, uppers) => [&[2, e.pivots, 0], &lowers[..], &uppers[..]].concat(),
        Outcome::Range => [&[3, e.pivots, 0], &zeros[..]].concat(),
        Outcome::Goes(_) => [&[0, e.pivots, 0], &zeros[..]].concat(),
    }
}

pub fn answer(ws: &[i128]) -> Vec<i128> {
    let given = problem(ws);
    let p = inner(&given);
    words_of(&p, &ending(&PAIRS, &p, start(&PAIRS, &p)))
}

/// Who leaves at each step of the run, with den.
pub fn leavings(ws: &[i128]) -> Vec<(Leaving<(i128, i128)>, i128)> {
    let given = problem(ws);
    let p = inner(&given);
    let mut s = start(&PAIRS, &p);
    let mut all = Vec::new();
    if conflict(&PAIRS, &p).is_some() {
        return all;
    }
    while let Some(r) = leaving(&PAIRS, &p, &s) {
        all.push((r, den(&s)));
        match step(&PAIRS, &p, &s) {
            Outcome::Goes(t) => s = t,
            _ => break,
        }
    }
    all
}
