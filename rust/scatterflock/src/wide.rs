//! Limit problems beyond the range: wide answers, their words and their
//! judgement.

use crate::answer::Judgement;
use crate::fractions::Fractions;
use crate::problem::Problem;
use crate::raw;
use crate::refusal::Refusal;
use finder::Whole;
use std::fmt;

/// The words of a number.
const LIMBS: usize = 4;

/// An answer to a limit problem in numbers of 128 bits, which are enough for
/// every problem. The checker of wide evidence has accepted it.
#[derive(Debug, Clone, PartialEq, Eq, Hash)]
pub struct WideAnswer {
    /// How many pivots the run without a range took. Nobody has checked that.
    pub pivots: u64,
    /// How it ended.
    pub verdict: WideVerdict,
}

/// What a wide answer says. Lists go by variable: the problem's own first, then
/// one for each row.
#[derive(Debug, Clone, PartialEq, Eq, Hash)]
pub enum WideVerdict {
    /// All limits hold at these values: each numerator over `over`, and so many
    /// small amounts over `over` more. [`WideAnswer::fractions`] puts a number for
    /// the small amount.
    Can {
        /// The denominator of every value, above 0.
        over: i128,
        /// The numerator of each variable's value.
        numerators: Vec<i128>,
        /// How often each numerator has the small amount beside it.
        small: Vec<i128>,
    },
    /// No values meet all limits: the limits, each so many times, contradict each
    /// other.
    Cannot {
        /// How many times each lower limit counts.
        lower: Vec<i128>,
        /// How many times each upper limit counts.
        upper: Vec<i128>,
    },
}

/// Checks a wide answer's words, anybody's, against the problem's
/// (docs/formats/wide.md).
///
/// ```
/// use scatterflock::{check_wide, Judgement, Refusal};
///
/// // x is at least 5: 6 over 1 will do, 4 over 1 will not
/// let words = [1, 0, 1, 5, 0];
/// let over = |numerator| [1, 0, 1, 0, 0, 0, numerator, 0, 0, 0, 0, 0, 0, 0];
/// assert_eq!(check_wide(&words, &over(6)), Ok(Judgement::Accepted));
/// assert_eq!(check_wide(&words, &over(4)), Ok(Judgement::Rejected));
/// assert_eq!(check_wide(&words, &[]), Err(Refusal::Short));
/// ```
///
/// # Errors
///
/// The refusal of words that are no problem, or [`Refusal::Short`].
pub fn check_wide(words: &[i32], answer: &[i64]) -> Result<Judgement, Refusal> {
    match raw::check_wide(words, answer) {
        8 => Ok(Judgement::Accepted),
        9 => Ok(Judgement::Rejected),
        number => Err(Refusal::try_from(number).expect("the checker returns 8, 9 or a refusal")),
    }
}

/// The words of an answer as those of a wide one, with each number in four words.
/// What [`check`](crate::check) accepts is accepted by [`check_wide`] then.
///
/// ```
/// use scatterflock::{check, check_wide, widened};
///
/// // x is at most 5
/// let (words, answer) = ([1, 0, 2, 0, 5], [1, 0, 1, -2, 0]);
/// let wide = widened(&answer);
/// assert_eq!(wide[6..10], [4_294_967_294, 4_294_967_295, 4_294_967_295, -1]);
/// assert_eq!(check_wide(&words, &wide), check(&words, &answer));
/// ```
#[must_use]
pub fn widened(answer: &[i64]) -> Vec<i64> {
    let (first, numbers) = answer.split_at(answer.len().min(2));
    let numbers = numbers.iter().flat_map(|&number| limbs(number.into()));
    first.iter().copied().chain(numbers).collect()
}

impl Problem {
    /// Its answer where numbers may grow beyond the range of [`solve`](Problem::solve):
    /// the same run, which ends in "can" or "cannot" then.
    ///
    /// What is handed back was found by code that is not proved, and was accepted
    /// by the proved checker. There is nothing where that did not accept it, which
    /// has never been seen.
    ///
    /// ```
    /// use scatterflock::{Problem, Verdict};
    ///
    /// let problem = Problem::new(3)?
    ///     .row(&[1_000, 999, -1_000])?
    ///     .exactly(3, 200)?
    ///     .row(&[999, -1_000, 1_000])?
    ///     .exactly(4, -100)?
    ///     .row(&[-1_000, 1_000, 999])?
    ///     .exactly(5, 50)?;
    /// assert_eq!(problem.solve().verdict, Verdict::OutOfRange);
    /// let fractions = problem.decide().unwrap().fractions().unwrap();
    /// assert_eq!(fractions.numerators[..3], ["200049900", "499450200", "-99799950"]);
    /// assert_eq!(fractions.over, "3994002999");
    /// # Ok::<(), scatterflock::BuildError>(())
    /// ```
    #[must_use]
    pub fn decide(&self) -> Option<WideAnswer> {
        let words = self.words();
        let evidence = finder::find(&words)?;
        let is_accepted = check_wide(&words, &evidence) == Ok(Judgement::Accepted);
        is_accepted.then(|| WideAnswer::read(&evidence))
    }

    /// Checks a wide answer's words, anybody's.
    ///
    /// # Errors
    ///
    /// [`Refusal::Short`], of an answer that has too few words.
    pub fn check_wide(&self, answer: &[i64]) -> Result<Judgement, Refusal> {
        check_wide(&self.words(), answer)
    }
}

impl WideAnswer {
    /// The answer of words that the checker has accepted, and no more of them than
    /// it needs.
    fn read(words: &[i64]) -> WideAnswer {
        let numbers: Vec<i128> = words[2..].chunks(LIMBS).map(number).collect();
        let (first, second) = numbers[1..].split_at(numbers.len() / 2);
        let (first, second) = (first.to_vec(), second.to_vec());
        let verdict = match words[0] {
            1 => WideVerdict::Can { over: numbers[0], numerators: first, small: second },
            _ => WideVerdict::Cannot { lower: first, upper: second },
        };
        WideAnswer { pivots: words[1] as u64, verdict }
    }

    /// The words of the answer, as [`check_wide`] takes them.
    #[must_use]
    pub fn evidence(&self) -> Vec<i64> {
        let (verdict, over, first, second) = match &self.verdict {
            WideVerdict::Can { over, numerators, small } => (1, *over, numerators, small),
            WideVerdict::Cannot { lower, upper } => (2, 0, lower, upper),
        };
        let numbers = [over].into_iter().chain(first.iter().copied()).chain(second.iter().copied());
        [verdict, self.pivots as i64].into_iter().chain(numbers.flat_map(limbs)).collect()
    }

    /// Values that meet all rows and limits, strict limits strictly, in decimal
    /// digits: 1 / (2^127 + 1) is put for the small amount, which is always small
    /// enough. Where no value has a small part, the denominator is that of the
    /// answer. They may take more than 128 bits.
    ///
    /// ```
    /// use scatterflock::Problem;
    ///
    /// let fractions = Problem::new(1)?.above(0, 3)?.decide().unwrap().fractions().unwrap();
    /// assert_eq!(fractions.numerators, ["510423550381407695195061911147652317188"]);
    /// assert_eq!(fractions.over, "170141183460469231731687303715884105729");
    /// # Ok::<(), scatterflock::BuildError>(())
    /// ```
    #[must_use]
    pub fn fractions(&self) -> Option<Fractions<String>> {
        let WideVerdict::Can { over, numerators, small } = &self.verdict else { return None };
        let is_plain = small.iter().all(|&small| small == 0);
        let parts = match is_plain {
            true => Whole::from(1),
            false => &Whole::from(i128::MAX) + &Whole::from(2),
        };
        let mixed = |(plain, small): (&i128, &i128)| {
            (&(&parts * &Whole::from(*plain)) + &Whole::from(*small)).to_string()
        };
        Some(Fractions {
            numerators: numerators.iter().zip(small).map(mixed).collect(),
            over: (&parts * &Whole::from(*over)).to_string(),
        })
    }
}

impl WideVerdict {
    /// The number in docs/RULES.md, 1 or 2.
    #[must_use]
    pub const fn number(&self) -> u32 {
        match self {
            WideVerdict::Can { .. } => 1,
            WideVerdict::Cannot { .. } => 2,
        }
    }
}

/// One line in plain words, as of an [`Answer`](crate::Answer).
impl fmt::Display for WideAnswer {
    fn fmt(&self, to: &mut fmt::Formatter) -> fmt::Result {
        let pivots = match self.pivots {
            1 => "1 pivot".to_string(),
            pivots => format!("{pivots} pivots"),
        };
        let (verdict, listed): (_, Vec<String>) = match &self.verdict {
            WideVerdict::Can { over, numerators, small } => {
                let values = numerators.iter().zip(small).map(|(number, small)| match small {
                    0 => format!("{number}/{over}"),
                    small => format!("{number}/{over} and {small}/{over} small"),
                });
                ("can", values.collect())
            }
            WideVerdict::Cannot { lower, upper } => {
                let both = lower.iter().zip(upper).enumerate();
                let sides = both.flat_map(|(v, (l, u))| [(l, "lower", v), (u, "upper", v)]);
                let named = sides.filter(|(times, _, _)| **times != 0);
                ("cannot", named.map(|(times, side, v)| format!("{times} x {side} {v}")).collect())
            }
        };
        write!(to, "{verdict}, after {pivots}: {}", listed.join(", "))
    }
}

/// The number of four words, the lowest first; all but the last are without a
/// sign.
fn number(limbs: &[i64]) -> i128 {
    limbs.iter().rev().fold(0, |above, &limb| (above << 32) | i128::from(limb))
}

fn limbs(number: i128) -> [i64; LIMBS] {
    let limb = |place: u32| i64::from((number >> (32 * place)) as u32);
    [limb(0), limb(1), limb(2), (number >> 96) as i64]
}
