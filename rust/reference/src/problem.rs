//! The words of a limit problem: which are refused, and what the others say.
//!
//! Renders "The limit problem as words" and "Refusal numbers and their order"
//! of docs/RULES.md.

use crate::pair::Pair;
use std::ops::RangeInclusive;

/// The number of problem variables, n.
const VARIABLES: RangeInclusive<i32> = 1..=8;
/// The most rows there may be, where no fewer are asked for.
pub const MOST_ROWS: u32 = 24;
const COEFFICIENTS: RangeInclusive<i32> = -1_000..=1_000;
/// 1 is for a lower limit and 2 for an upper one, 4 and 8 make them strict. A
/// sum that makes a missing limit strict is not among them.
const KINDS: [i32; 9] = [0, 1, 2, 3, 5, 7, 10, 11, 15];
const LIMITS: RangeInclusive<i32> = -30_000..=30_000;

/// The largest size of a tableau number, and of a multiplier.
pub const LARGEST_NUMBER: i128 = 2_147_483_647;

/// A variable's number: below n the problem's own, from n on those of rows.
pub type Variable = usize;

/// What accepted words say.
#[derive(Debug, Clone, PartialEq, Eq)]
pub struct Problem {
    /// The number of problem variables.
    pub n: usize,
    /// One list of n coefficients for each row.
    pub rows: Vec<Vec<i128>>,
    /// The limits of each of the n + m variables.
    pub limits: Vec<Limits>,
}

/// The limits of one variable. `None` is a missing limit.
#[derive(Debug, Clone, Copy, PartialEq, Eq)]
pub struct Limits {
    pub lower: Option<Limit>,
    pub upper: Option<Limit>,
}

/// A limit's number, and whether a value that equals it breaks it.
#[derive(Debug, Clone, Copy, PartialEq, Eq)]
pub struct Limit {
    pub plain: i128,
    pub strict: bool,
}

impl Problem {
    /// The number of variables, rows' variables included.
    pub fn variables(&self) -> usize {
        self.limits.len()
    }

    /// How many words an answer has.
    pub fn answer_length(&self) -> usize {
        3 + 2 * self.variables()
    }

    /// The same rows with those limits alone that are kept, by variable and by
    /// whether they are upper ones.
    pub fn keeping(&self, is_kept: impl Fn(Variable, bool) -> bool) -> Problem {
        let mut fewer = self.clone();
        for (variable, limits) in fewer.limits.iter_mut().enumerate() {
            limits.lower = limits.lower.filter(|_| is_kept(variable, false));
            limits.upper = limits.upper.filter(|_| is_kept(variable, true));
        }
        fewer
    }

    /// The problem of the words, or the number that refuses them.
    pub fn read(words: &[i32]) -> Result<Problem, u32> {
        Problem::read_within(MOST_ROWS, words)
    }

    /// The same where there may be so many rows, and never more than the most.
    pub fn read_within(most_rows: u32, words: &[i32]) -> Result<Problem, u32> {
        if words.len() < 2 {
            return Err(1);
        }
        let rows = 0..=i64::from(most_rows.min(MOST_ROWS));
        if !VARIABLES.contains(&words[0]) || !rows.contains(&i64::from(words[1])) {
            return Err(2);
        }
        let n = words[0] as usize;
        let m = words[1] as usize;
        if words.len() != 2 + m * n + 3 * (n + m) {
            return Err(3);
        }
        let (coefficients, limits) = words[2..].split_at(m * n);
        judge_parts(coefficients, limits)?;
        if coefficients.chunks(n).any(is_blank) {
            return Err(10);
        }
        Ok(Problem {
            n,
            rows: coefficients.chunks(n).map(row).collect(),
            limits: limits.chunks(3).map(Limits::of).collect(),
        })
    }
}

/// Refusals 4 to 6, each over all words before the next.
fn judge_parts(coefficients: &[i32], limits: &[i32]) -> Result<(), u32> {
    if coefficients.iter().any(|word| !COEFFICIENTS.contains(word)) {
        return Err(4);
    }
    if limits.chunks(3).any(|three| !KINDS.contains(&three[0])) {
        return Err(5);
    }
    if limits.chunks(3).any(|three| !limit_words_pass(three)) {
        return Err(6);
    }
    Ok(())
}

/// Whether no variable counts in a row.
fn is_blank(row: &[i32]) -> bool {
    row.iter().all(|&coefficient| coefficient == 0)
}

/// Whether a present limit is in range and the word of a missing one is 0.
fn limit_words_pass(three: &[i32]) -> bool {
    let passes = |present: bool, word: i32| {
        if present {
            LIMITS.contains(&word)
        } else {
            word == 0
        }
    };
    passes(has_lower(three[0]), three[1]) && passes(has_upper(three[0]), three[2])
}

fn has_lower(kind: i32) -> bool {
    [1, 3, 5, 7, 11, 15].contains(&kind)
}

fn has_upper(kind: i32) -> bool {
    [2, 3, 7, 10, 11, 15].contains(&kind)
}

fn is_strict_below(kind: i32) -> bool {
    [5, 7, 15].contains(&kind)
}

fn is_strict_above(kind: i32) -> bool {
    [10, 11, 15].contains(&kind)
}

fn row(words: &[i32]) -> Vec<i128> {
    words.iter().map(|&word| i128::from(word)).collect()
}

impl Limits {
    fn of(three: &[i32]) -> Limits {
        let [kind, lower, upper] = [three[0], three[1], three[2]];
        let lower = Limit { plain: lower.into(), strict: is_strict_below(kind) };
        let upper = Limit { plain: upper.into(), strict: is_strict_above(kind) };
        Limits { lower: has_lower(kind).then_some(lower), upper: has_upper(kind).then_some(upper) }
    }

    /// The least pair that the run lets the variable have, if there is one: a
    /// strict limit is one small amount farther in.
    pub fn least(&self) -> Option<Pair> {
        self.lower.map(|lower| Pair::whole(lower.plain, i128::from(lower.strict)))
    }

    /// The greatest such pair.
    pub fn most(&self) -> Option<Pair> {
        self.upper.map(|upper| Pair::whole(upper.plain, -i128::from(upper.strict)))
    }

    /// Whether no pair is within both limits.
    pub fn crossed(&self) -> bool {
        matches!((self.least(), self.most()), (Some(least), Some(most)) if least > most)
    }
}
