//! Limit problems: answers, their words and their judgement.

use crate::fractions::Fractions;
use crate::raw;
use crate::refusal::Refusal;
use crate::sizes::{LARGEST_SMALL, MOST_ANSWER, MOST_ROWS};
use std::fmt;

/// The answer to a limit problem.
#[derive(Debug, Clone, PartialEq, Eq, Hash)]
pub struct Answer {
    /// How many pivots the run completed.
    pub pivots: u64,
    /// How it ended.
    pub verdict: Verdict,
}

/// How a run ended. Lists go by variable: the problem's own first, then one
/// for each row.
#[derive(Debug, Clone, PartialEq, Eq, Hash)]
#[non_exhaustive]
pub enum Verdict {
    /// All limits hold at these values: each numerator over `over`, and so
    /// many small amounts over `over` more. [`Answer::fractions`] puts a number
    /// for the small amount.
    Can {
        /// The denominator of every value, above 0.
        over: i64,
        /// The numerator of each variable's value.
        numerators: Vec<i64>,
        /// How often each numerator has the small amount beside it. All of them
        /// are 0 where no limit is strict.
        small: Vec<i64>,
    },
    /// No values meet all limits: the limits, each so many times, contradict
    /// each other. Of those that the solver names, the ones that are not 0, each
    /// is needed for that: [`Answer::clash`] says so, and
    /// [`Problem::without`](crate::Problem::without) gives values that meet the
    /// others.
    Cannot {
        /// How many times each lower limit counts.
        lower: Vec<i64>,
        /// How many times each upper limit counts.
        upper: Vec<i64>,
    },
    /// The run came to a number beyond 2,147,483,647 and says nothing more.
    OutOfRange,
}

/// What the checker says of an answer that is long enough.
#[derive(Debug, Clone, Copy, PartialEq, Eq, Hash)]
#[must_use]
pub enum Judgement {
    /// The answer is right, whoever gave it.
    Accepted,
    /// The answer shows nothing.
    Rejected,
}

/// Answers the limit problem of these words.
///
/// ```
/// use scatterflock::{solve, Verdict};
///
/// // x and y are at least 2, and their sum is at most 3
/// let words = [2, 1, 1, 1, 1, 2, 0, 1, 2, 0, 2, 0, 3];
/// let answer = solve(&words)?;
/// let expected = Verdict::Cannot { lower: vec![1, 1, 0], upper: vec![0, 0, 1] };
/// assert_eq!(answer.verdict, expected);
/// assert_eq!(
///     answer.to_string(),
///     "cannot, after 0 pivots: 1 x lower 0, 1 x lower 1, 1 x upper 2"
/// );
/// # Ok::<(), scatterflock::Refusal>(())
/// ```
///
/// # Errors
///
/// The refusal of words that are no problem: the first that applies.
pub fn solve(words: &[i32]) -> Result<Answer, Refusal> {
    let mut out = [0; MOST_ANSWER];
    answered(raw::solve(words, &mut out), words, &out)
}

/// Answers the limit problem of these words, which may have so many rows and
/// never more than [`MOST_ROWS`].
///
/// ```
/// use scatterflock::{solve_within, Refusal};
///
/// // 5 times x is at least 3
/// let words = [1, 1, 5, 0, 0, 0, 1, 3, 0];
/// assert_eq!(solve_within(1, &words)?.to_string(), "can, after 1 pivot: 3/5, 15/5");
/// assert_eq!(solve_within(0, &words), Err(Refusal::Sizes));
/// # Ok::<(), scatterflock::Refusal>(())
/// ```
///
/// # Errors
///
/// The refusal of words that are no problem: the first that applies. Of one with
/// more rows it is [`Refusal::Sizes`].
pub fn solve_within(most_rows: usize, words: &[i32]) -> Result<Answer, Refusal> {
    let mut out = [0; MOST_ANSWER];
    let most_rows = most_rows.min(MOST_ROWS) as u32;
    answered(raw::solve_within(most_rows, words, &mut out), words, &out)
}

/// What a solver has returned and written, with room for any answer.
fn answered(number: u32, words: &[i32], out: &[i64]) -> Result<Answer, Refusal> {
    match number {
        0 => {
            let variables = (words[0] + words[1]) as usize;
            Ok(Answer::read(&out[..3 + 2 * variables]))
        }
        number => Err(Refusal::try_from(number).expect("a solver returns 0 or a refusal")),
    }
}

/// Checks an answer's words, anybody's, against the problem's.
///
/// ```
/// use scatterflock::{check, Judgement, Refusal};
///
/// // x is at least 5: 6 over 1 will do, 4 over 1 will not
/// let words = [1, 0, 1, 5, 0];
/// assert_eq!(check(&words, &[1, 0, 1, 6, 0]), Ok(Judgement::Accepted));
/// assert_eq!(check(&words, &[1, 0, 1, 4, 0]), Ok(Judgement::Rejected));
/// assert_eq!(check(&words, &[]), Err(Refusal::Short));
/// ```
///
/// # Errors
///
/// The refusal of words that are no problem, or else [`Refusal::Short`] of an
/// answer that has too few words.
pub fn check(words: &[i32], answer: &[i64]) -> Result<Judgement, Refusal> {
    match raw::check(words, answer) {
        8 => Ok(Judgement::Accepted),
        9 => Ok(Judgement::Rejected),
        number => Err(Refusal::try_from(number).expect("check returns 8, 9 or a refusal")),
    }
}

impl Answer {
    /// The answer that exactly these words give.
    pub(crate) fn read(words: &[i64]) -> Answer {
        let (first, second) = words[3..].split_at((words.len() - 3) / 2);
        let verdict = match words[0] {
            1 => {
                Verdict::Can { over: words[2], numerators: first.to_vec(), small: second.to_vec() }
            }
            2 => Verdict::Cannot { lower: first.to_vec(), upper: second.to_vec() },
            _ => Verdict::OutOfRange,
        };
        Answer { pivots: words[1] as u64, verdict }
    }

    /// The words of the answer, as [`check`] takes them. An answer that is out
    /// of range is evidence of nothing.
    #[must_use]
    pub fn evidence(&self) -> Option<Vec<i64>> {
        let pivots = self.pivots as i64;
        match &self.verdict {
            Verdict::Can { over, numerators, small } => {
                Some([&[1, pivots, *over], &numerators[..], &small[..]].concat())
            }
            Verdict::Cannot { lower, upper } => {
                Some([&[2, pivots, 0], &lower[..], &upper[..]].concat())
            }
            Verdict::OutOfRange => None,
        }
    }

    /// Values that meet all rows and limits, strict limits strictly, as
    /// numbers: 1 / 17,179,869,177 is put for the small amount, which is always
    /// small enough. Where no value has a small part, the denominator is that of
    /// the answer. They take more than 64 bits.
    ///
    /// ```
    /// use scatterflock::Problem;
    ///
    /// // y is less than 3, and x + y more than that
    /// let problem = Problem::new(2)?.above(0, 0)?.below(1, 3)?.row(&[1, 1])?.above(2, 3)?;
    /// let fractions = problem.solve().fractions().unwrap();
    /// assert_eq!(fractions.numerators, [51_539_607_532, 0, 51_539_607_532]);
    /// assert_eq!(fractions.over, 17_179_869_177);
    /// # Ok::<(), scatterflock::BuildError>(())
    /// ```
    #[must_use]
    pub fn fractions(&self) -> Option<Fractions<i128>> {
        let Verdict::Can { over, numerators, small } = &self.verdict else { return None };
        let is_plain = small.iter().all(|&small| small == 0);
        let parts = if is_plain { 1 } else { i128::from(LARGEST_SMALL) + 1 };
        let mixed = |(plain, small): (&i64, &i64)| parts * i128::from(*plain) + i128::from(*small);
        Some(Fractions {
            numerators: numerators.iter().zip(small).map(mixed).collect(),
            over: parts * i128::from(*over),
        })
    }

    /// The limits that a "cannot" of the solver names, and that each of them is
    /// needed.
    ///
    /// Ask it of the solver's own answers only: another's "cannot" may be
    /// accepted although it names limits for nothing. The text of any answer,
    /// by [`Display`](fmt::Display), tells what is named and no more.
    ///
    /// ```
    /// use scatterflock::Problem;
    ///
    /// // x and y are at least 2, and their sum is at most 3
    /// let problem =
    ///     Problem::new(2)?.at_least(0, 2)?.at_least(1, 2)?.row(&[1, 1])?.at_most(2, 3)?;
    /// assert_eq!(
    ///     problem.solve().clash().unwrap(),
    ///     "1 x lower 0, 1 x lower 1, 1 x upper 2: \
    ///      each is needed, drop any one and the others can be met"
    /// );
    /// # Ok::<(), scatterflock::BuildError>(())
    /// ```
    #[must_use]
    pub fn clash(&self) -> Option<String> {
        let Verdict::Cannot { lower, upper } = &self.verdict else { return None };
        let named = counted(lower, upper).join(", ");
        Some(format!("{named}: each is needed, drop any one and the others can be met"))
    }
}

impl Verdict {
    /// The number in docs/RULES.md, 1 to 3.
    #[must_use]
    pub const fn number(&self) -> u32 {
        match self {
            Verdict::Can { .. } => 1,
            Verdict::Cannot { .. } => 2,
            Verdict::OutOfRange => 3,
        }
    }
}

/// One line in plain words, of any answer alike.
impl fmt::Display for Answer {
    fn fmt(&self, to: &mut fmt::Formatter) -> fmt::Result {
        let pivots = match self.pivots {
            1 => "1 pivot".to_string(),
            pivots => format!("{pivots} pivots"),
        };
        match &self.verdict {
            Verdict::Can { over, numerators, small } => {
                let values = numerators.iter().zip(small).map(|(number, small)| match small {
                    0 => format!("{number}/{over}"),
                    small => format!("{number}/{over} and {small}/{over} small"),
                });
                let values: Vec<String> = values.collect();
                write!(to, "can, after {pivots}: {}", values.join(", "))
            }
            Verdict::Cannot { lower, upper } => {
                write!(to, "cannot, after {pivots}: {}", counted(lower, upper).join(", "))
            }
            Verdict::OutOfRange => write!(to, "out of range, after {pivots}"),
        }
    }
}

/// Each limit that counts, by variable, the lower one first.
fn counted(lower: &[i64], upper: &[i64]) -> Vec<String> {
    let both = lower.iter().zip(upper).enumerate();
    both.flat_map(|(v, (lower, upper))| [(lower, "lower", v), (upper, "upper", v)])
        .filter(|(times, _, _)| **times != 0)
        .map(|(times, side, v)| format!("{times} x {side} {v}"))
        .collect()
}

impl fmt::Display for Judgement {
    fn fmt(&self, to: &mut fmt::Formatter) -> fmt::Result {
        to.write_str(match self {
            Judgement::Accepted => "accepted",
            Judgement::Rejected => "not accepted",
        })
    }
}
