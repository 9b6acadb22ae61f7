//! The definitions against `reference`, on random problems of every family.

use crate::evidence::checked;
use crate::fractions::met_with;
use crate::idle::{is_named, named, without};
use crate::problem::{inner, problem, refusal, refusal_within, rows_within, vars};
use crate::run::{answer, ending, leavings};
use crate::step::{start, Leaving, Outcome, Side};
use crate::value::PAIRS;
use problems::evidence::bent;
use problems::limits::Family;
use problems::random::Random;
use reference::{violations, Violation};
use std::collections::BTreeMap;

/// How many problems had each refusal or verdict, how many right and bent
/// answers the checker met with each number, how many violations were compared,
/// and how many problems could be met with one named limit less.
#[derive(Debug, Default)]
pub struct Shares {
    pub outcomes: BTreeMap<String, u64>,
    pub checks: BTreeMap<u32, u64>,
    pub violations: u64,
    pub met_again: u64,
}

/// Compares every word of so many problems. A difference is an error that
/// says how to make the problem again.
pub fn compare(seed: u64, problems: u64) -> Result<Shares, String> {
    let mut shares = Shares::default();
    for problem in 0..problems {
        let mut random = Random::of_problem(seed, problem);
        let family = Family::ALL[problem as usize % Family::ALL.len()];
        let words = family.words(&mut random);
        compare_one(&mut random, &words, &mut shares).map_err(|what| {
            format!("{what} differs: SEED={seed}, problem {problem} ({family:?}): {words:?}")
        })?;
    }
    Ok(shares)
}

fn compare_one(random: &mut Random, words: &[i32], shares: &mut Shares) -> Result<(), String> {
    let wide: Vec<i128> = words.iter().map(|&word| i128::from(word)).collect();
    let length = if random.percent(95) { 67 } else { random.size(0, 67) };
    let mut out = vec![-1; length];
    let number = reference::solve(words, &mut out);
    same("the refusal", refusal(&wide, length), number)?;
    compare_within(words, &wide)?;
    if number != 0 {
        *shares.outcomes.entry(format!("refused {number}")).or_default() += 1;
        return compare_check(words, &wide, &out, shares);
    }
    let verdict = ["can", "cannot", "range"][out[0] as usize - 1];
    *shares.outcomes.entry(verdict.to_string()).or_default() += 1;
    let expected = answer(&wide);
    let written: Vec<i128> = out.iter().map(|&word| i128::from(word)).collect();
    same("the answer", &expected[..], &written[..expected.len()])?;
    compare_violations(words, &wide, shares)?;
    if out[0] == 2 {
        drop_one(random, &wide, &expected, shares)?;
    }
    compare_check(words, &wide, &out, shares)?;
    for _ in 0..3 {
        let bent = bent(random, words, &out[..expected.len()]);
        compare_check(words, &wide, &bent, shares)?;
    }
    Ok(())
}

/// The refusal within each number of rows, and a few that are too many.
fn compare_within(words: &[i32], wide: &[i128]) -> Result<(), String> {
    for most in (0..=30).chain([u32::MAX]) {
        let number = reference::solve_within(most, words, &mut []);
        same("the refusal within", refusal_within(rows_within(most), wide, 0), number)?;
    }
    Ok(())
}

/// Variable, side, D and shortfall at every step of the run. A shortfall is a
/// pair above 0.
fn compare_violations(words: &[i32], wide: &[i128], shares: &mut Shares) -> Result<(), String> {
    let told = |(r, over): (Leaving<(i128, i128)>, i128)| Violation {
        variable: r.variable,
        below: r.side == Side::Below,
        over,
        shortfall: r.shortfall,
    };
    let found: Vec<Violation> = leavings(wide).into_iter().map(told).collect();
    shares.violations += found.len() as u64;
    let is_none = |violation: &&Violation| !(PAIRS.less)(PAIRS.nil, violation.shortfall);
    if let Some(none) = found.iter().find(is_none) {
        return Err(format!("the shortfall of {none:?} is not above 0, which"));
    }
    same("a violation", found, violations(words))
}

/// Keeps the limits that a "cannot" names, but for one of them. The run of what
/// is left comes to no "cannot".
fn drop_one(
    random: &mut Random,
    wide: &[i128],
    told: &[i128],
    shares: &mut Shares,
) -> Result<(), String> {
    let p = problem(wide);
    let sides = (0..vars(&p)).flat_map(|v| [(Side::Below, v), (Side::Above, v)]);
    let all: Vec<(Side, usize)> =
        sides.filter(|&(side, v)| is_named(vars(&p), told, side, v)).collect();
    let (side, v) = random.pick(&all);
    let named = named(told, &p);
    let less = without(side, v, &named);
    let less = inner(&less);
    match ending(&PAIRS, &less, start(&PAIRS, &less)).how {
        Outcome::Cannot(..) => Err(format!("{v} {side:?} is named for nothing, which")),
        how => {
            shares.met_again += u64::from(matches!(how, Outcome::Can));
            Ok(())
        }
    }
}

/// Fractions e / k for the small amount: the largest there may be, and others.
const SMALL_AMOUNTS: [(i128, i128); 3] =
    [(1, 17_179_869_177), (3, 3 * 17_179_869_177 + 1), (1, i64::MAX as i128)];

/// The checker's number. Of a point that it accepts, each fraction for the small
/// amount meets the problem.
fn compare_check(
    words: &[i32],
    wide: &[i128],
    answer: &[i64],
    shares: &mut Shares,
) -> Result<(), String> {
    let wide_answer: Vec<i128> = answer.iter().map(|&word| i128::from(word)).collect();
    let number = reference::check(words, answer);
    *shares.checks.entry(number).or_default() += 1;
    same("the check", checked(wide, &wide_answer), number)?;
    let is_point = number == 8 && answer[0] == 1;
    let meets = |&(e, k): &(i128, i128)| met_with(&problem(wide), &wide_answer, e, k);
    match SMALL_AMOUNTS.iter().find(|amount| is_point && !meets(amount)) {
        Some((e, k)) => Err(format!("with {e} / {k} the point {answer:?} does not hold, which")),
        None => Ok(()),
    }
}

fn same<T: PartialEq + std::fmt::Debug>(what: &str, one: T, other: T) -> Result<(), String> {
    if one == other {
        Ok(())
    } else {
        Err(format!("{what}, {one:?} and {other:?},"))
    }
}
