//! A limit problem that is built step by step, and checked at each.

use crate::answer::{check, solve, solve_within, Answer, Judgement, Verdict};
use crate::build_error::BuildError;
use crate::raw;
use crate::refusal::Refusal;
use crate::session::Session;
use crate::sizes::{LARGEST_COEFFICIENT, LARGEST_LIMIT, MOST_ROWS, MOST_VARIABLES};
use crate::slice::Slice;

/// A limit: how far a value may go.
#[derive(Debug, Clone, Copy, PartialEq, Eq, Hash)]
pub struct Limit {
    /// The number that no value passes.
    pub number: i32,
    /// Whether the number itself is left out too.
    pub is_strict: bool,
}

/// Which of a variable's two limits is meant.
#[derive(Debug, Clone, Copy, PartialEq, Eq, Hash)]
pub enum Side {
    /// The lower one.
    Lower = 0,
    /// The upper one.
    Upper = 1,
}

/// A limit problem. What is wrong with it is told while it is built, so a
/// problem that is there is never refused.
///
/// A problem of n variables begins with these, numbered from 0. Each row that
/// is added is one more variable, the sum of the row: n, n + 1 and so on.
/// Every one of them can have a lower and an upper limit. Variables can have names
/// in place of numbers: [`Problem::named`].
///
/// ```
/// use scatterflock::{Problem, Verdict};
///
/// let problem = Problem::new(2)? // x and y are variables 0 and 1
///     .at_least(0, 2)?
///     .at_least(1, 2)?
///     .row(&[1, 1])? // x + y is variable 2
///     .at_most(2, 3)?;
/// let Verdict::Cannot { lower, upper } = problem.solve().verdict else {
///     panic!("2 and 2 are more than 3");
/// };
/// assert_eq!((lower, upper), (vec![1, 1, 0], vec![0, 0, 1]));
/// # Ok::<(), scatterflock::BuildError>(())
/// ```
///
/// A strict limit leaves its own number out. The answer stays a small amount
/// inside, and [`Answer::fractions`] puts a number for that amount:
///
/// ```
/// use scatterflock::Problem;
///
/// // solder stays below 217 degrees, and comes to 216 or more
/// let answer = Problem::new(1)?.at_least(0, 216)?.below(0, 217)?.solve();
/// assert_eq!(answer.to_string(), "can, after 0 pivots: 216/1");
///
/// let answer = Problem::new(1)?.above(0, 0)?.solve();
/// assert_eq!(answer.to_string(), "can, after 0 pivots: 0/1 and 1/1 small");
/// let fractions = answer.fractions().unwrap();
/// assert_eq!((fractions.numerators, fractions.over), (vec![1], 17_179_869_177));
/// # Ok::<(), scatterflock::BuildError>(())
/// ```
#[derive(Debug, Clone, PartialEq, Eq, Hash)]
pub struct Problem {
    variables: usize,
    /// The name of each variable, or none at all.
    pub(crate) names: Vec<String>,
    rows: Vec<Vec<i32>>,
    /// Lower and upper limit of each variable, then of each row.
    limits: Vec<[Option<Limit>; 2]>,
}

impl Problem {
    /// A problem of so many variables, without rows and limits.
    ///
    /// # Errors
    ///
    /// There are 1 to 8 variables.
    pub fn new(variables: usize) -> Result<Problem, BuildError> {
        if !(1..=MOST_VARIABLES).contains(&variables) {
            return Err(BuildError::Variables(variables));
        }
        let (names, rows, limits) = (Vec::new(), Vec::new(), vec![[None; 2]; variables]);
        Ok(Problem { variables, names, rows, limits })
    }

    /// The problem that these words hold (docs/formats/problem.md).
    ///
    /// # Errors
    ///
    /// The refusal of words that are no problem: the archive judges them.
    pub fn from_words(words: &[i32]) -> Result<Problem, Refusal> {
        Problem::from_words_within(MOST_ROWS, words)
    }

    /// The problem that these words hold, where it may have only so many rows.
    ///
    /// # Errors
    ///
    /// As for [`from_words`](Problem::from_words); of one with more rows,
    /// [`Refusal::Sizes`].
    pub fn from_words_within(most_rows: usize, words: &[i32]) -> Result<Problem, Refusal> {
        match Problem::refusal_within(most_rows, words) {
            None => Ok(Problem::read(words)),
            Some(refusal) => Err(refusal),
        }
    }

    /// The refusal of these words, where a problem may have only so many rows.
    pub(crate) fn refusal_within(most_rows: usize, words: &[i32]) -> Option<Refusal> {
        // An answer without room is refused last of all.
        let number = raw::solve_within(most_rows.min(MOST_ROWS) as u32, words, &mut []);
        let refusal = Refusal::try_from(number).expect("an answer has words");
        (refusal != Refusal::Short).then_some(refusal)
    }

    /// The problem of words that are one.
    pub(crate) fn read(words: &[i32]) -> Problem {
        let (variables, rows) = (words[0] as usize, words[1] as usize);
        let (coefficients, limits) = words[2..].split_at(rows * variables);
        Problem {
            variables,
            names: Vec::new(),
            rows: coefficients.chunks_exact(variables).map(<[i32]>::to_vec).collect(),
            limits: limits
                .chunks_exact(3)
                .map(|three| [0, 1].map(|side| Limit::read(three, side)))
                .collect(),
        }
    }

    /// Adds a row: a coefficient for each variable. [`add_row`](Problem::add_row)
    /// hands back its number.
    ///
    /// # Errors
    ///
    /// There are at most 24 rows, with as many coefficients as the problem has
    /// variables, each from -1,000 to 1,000 and not all of them 0.
    pub fn row(mut self, coefficients: &[i32]) -> Result<Problem, BuildError> {
        self.add_row(coefficients)?;
        Ok(self)
    }

    /// Adds a row, and hands back the number of the variable that is its sum.
    ///
    /// ```
    /// use scatterflock::Problem;
    ///
    /// let mut problem = Problem::new(2)?;
    /// let sum = problem.add_row(&[1, 1])?;
    /// let problem = problem.at_least(sum, 2)?;
    /// assert_eq!(sum, 2);
    /// # Ok::<(), scatterflock::BuildError>(())
    /// ```
    ///
    /// # Errors
    ///
    /// As for [`row`](Problem::row). Then nothing changes.
    pub fn add_row(&mut self, coefficients: &[i32]) -> Result<usize, BuildError> {
        if self.rows.len() == MOST_ROWS {
            return Err(BuildError::Rows);
        }
        if coefficients.len() != self.variables {
            return Err(BuildError::RowLength {
                given: coefficients.len(),
                variables: self.variables,
            });
        }
        let range = -LARGEST_COEFFICIENT..=LARGEST_COEFFICIENT;
        if let Some(&number) = coefficients.iter().find(|number| !range.contains(number)) {
            return Err(BuildError::Coefficient(number));
        }
        if coefficients.iter().all(|&number| number == 0) {
            return Err(BuildError::BlankRow);
        }
        self.rows.push(coefficients.to_vec());
        self.limits.push([None; 2]);
        Ok(self.limits.len() - 1)
    }

    /// Gives a variable, or the sum of a row, a lower limit.
    ///
    /// # Errors
    ///
    /// The variable is one of the problem's and has no lower limit yet, and
    /// the limit is from -30,000 to 30,000.
    pub fn at_least(self, variable: usize, limit: i32) -> Result<Problem, BuildError> {
        self.give(variable, 0, Limit { number: limit, is_strict: false })
    }

    /// Gives a variable, or the sum of a row, a strict lower limit: the value
    /// is more than that.
    ///
    /// # Errors
    ///
    /// As for [`at_least`](Problem::at_least).
    pub fn above(self, variable: usize, limit: i32) -> Result<Problem, BuildError> {
        self.give(variable, 0, Limit { number: limit, is_strict: true })
    }

    /// Gives a variable, or the sum of a row, an upper limit.
    ///
    /// # Errors
    ///
    /// As for [`at_least`](Problem::at_least).
    pub fn at_most(self, variable: usize, limit: i32) -> Result<Problem, BuildError> {
        self.give(variable, 1, Limit { number: limit, is_strict: false })
    }

    /// Gives a variable, or the sum of a row, a strict upper limit: the value
    /// is less than that.
    ///
    /// # Errors
    ///
    /// As for [`at_least`](Problem::at_least).
    pub fn below(self, variable: usize, limit: i32) -> Result<Problem, BuildError> {
        self.give(variable, 1, Limit { number: limit, is_strict: true })
    }

    /// Gives both limits.
    ///
    /// # Errors
    ///
    /// As for [`at_least`](Problem::at_least). Limits that cross are no error:
    /// they cannot be met.
    pub fn between(self, variable: usize, low: i32, high: i32) -> Result<Problem, BuildError> {
        self.at_least(variable, low)?.at_most(variable, high)
    }

    /// Gives both limits, the same.
    ///
    /// # Errors
    ///
    /// As for [`at_least`](Problem::at_least).
    pub fn exactly(self, variable: usize, value: i32) -> Result<Problem, BuildError> {
        self.between(variable, value, value)
    }

    pub(crate) fn give(
        mut self,
        variable: usize,
        side: usize,
        limit: Limit,
    ) -> Result<Problem, BuildError> {
        let Some(limits) = self.limits.get_mut(variable) else {
            return Err(BuildError::NoVariable(variable));
        };
        if !(-LARGEST_LIMIT..=LARGEST_LIMIT).contains(&limit.number) {
            return Err(BuildError::Limit(limit.number));
        }
        if limits[side].is_some() {
            return Err(BuildError::LimitTwice(variable));
        }
        limits[side] = Some(limit);
        Ok(self)
    }

    /// How many variables it has, the sums of rows not counted.
    #[must_use]
    pub fn variables(&self) -> usize {
        self.variables
    }

    /// The coefficients of each row.
    #[must_use]
    pub fn rows(&self) -> &[Vec<i32>] {
        &self.rows
    }

    /// The lower and the upper limit of a variable, or of a row's sum. There
    /// is neither for a number that is no variable.
    #[must_use]
    pub fn limits(&self, variable: usize) -> [Option<Limit>; 2] {
        self.limits.get(variable).copied().unwrap_or_default()
    }

    /// Its words, as [`solve()`] and [`check`] take them.
    #[must_use]
    pub fn words(&self) -> Vec<i32> {
        let mut words = vec![self.variables as i32, self.rows.len() as i32];
        words.extend(self.rows.iter().flatten());
        for limits in &self.limits {
            let kind = [0, 1].map(|side| limits[side].map_or(0, |limit| limit.kind(side)));
            let number = limits.map(|limit| limit.map_or(0, |limit| limit.number));
            words.extend([kind[0] + kind[1], number[0], number[1]]);
        }
        words
    }

    /// Its answer.
    #[must_use]
    pub fn solve(&self) -> Answer {
        solve(&self.words()).expect("a problem that was built is not refused")
    }

    /// Its answer, where it may have only so many rows.
    ///
    /// # Errors
    ///
    /// [`Refusal::Sizes`], where it has more.
    pub fn solve_within(&self, most_rows: usize) -> Result<Answer, Refusal> {
        solve_within(most_rows, &self.words())
    }

    /// A session of it. Every limit is off.
    #[must_use]
    pub fn session(&self) -> Session {
        Session::open(&self.words()).expect("a problem that was built is not refused")
    }

    /// Its run, before any pivot.
    #[must_use]
    pub fn slice(&self) -> Slice {
        Slice::start(&self.words()).expect("a problem that was built is not refused")
    }

    /// Checks an answer's words, anybody's.
    ///
    /// # Errors
    ///
    /// [`Refusal::Short`], of an answer that has too few words.
    pub fn check(&self, answer: &[i64]) -> Result<Judgement, Refusal> {
        check(&self.words(), answer)
    }

    /// The answer to a smaller problem: of the limits that a "cannot" names,
    /// those with a multiplier other than 0, all are kept but one, and the rest
    /// is dropped. There is none where that one is not named.
    ///
    /// No limit of the solver's own "cannot" is named for nothing, so the others
    /// can be met: the answer is a "can" with values for it, or out of range
    /// where numbers grow too large on the way. The checker has accepted it.
    ///
    /// ```
    /// use scatterflock::{Problem, Side};
    ///
    /// // x and y are at least 2, and their sum is at most 3
    /// let problem =
    ///     Problem::new(2)?.at_least(0, 2)?.at_least(1, 2)?.row(&[1, 1])?.at_most(2, 3)?;
    /// let cannot = problem.solve();
    /// let without = |variable, side| problem.without(&cannot, variable, side);
    ///
    /// let sum = without(2, Side::Upper).unwrap();
    /// assert_eq!(sum.to_string(), "can, after 0 pivots: 2/1, 2/1, 4/1");
    /// let x = without(0, Side::Lower).unwrap();
    /// assert_eq!(x.to_string(), "can, after 0 pivots: 0/1, 2/1, 2/1");
    /// assert_eq!(without(2, Side::Lower), None);
    /// # Ok::<(), scatterflock::BuildError>(())
    /// ```
    ///
    /// # Panics
    ///
    /// If the checker did not accept what the solver answers: that it always
    /// does is proved.
    #[must_use]
    pub fn without(&self, cannot: &Answer, variable: usize, side: Side) -> Option<Answer> {
        let Verdict::Cannot { lower, upper } = &cannot.verdict else { return None };
        let named = [lower, upper];
        let is_named = |variable: usize, side: usize| {
            named[side].get(variable).is_some_and(|&multiplier| multiplier != 0)
        };
        if !is_named(variable, side as usize) {
            return None;
        }
        let mut smaller = self.clone();
        for (other, limits) in smaller.limits.iter_mut().enumerate() {
            for (at, limit) in limits.iter_mut().enumerate() {
                if !is_named(other, at) || (other, at) == (variable, side as usize) {
                    *limit = None;
                }
            }
        }
        let answer = smaller.solve();
        if let Some(evidence) = answer.evidence() {
            assert_eq!(smaller.check(&evidence), Ok(Judgement::Accepted));
        }
        Some(answer)
    }
}

impl Limit {
    /// The limit on one side of a variable: of its kind, lower and upper word.
    fn read(three: &[i32], side: usize) -> Option<Limit> {
        let is_strict = three[0] & STRICT[side] != 0;
        (three[0] & PRESENT[side] != 0).then_some(Limit { number: three[1 + side], is_strict })
    }

    /// What it adds to the kind of its variable.
    fn kind(self, side: usize) -> i32 {
        PRESENT[side] + if self.is_strict { STRICT[side] } else { 0 }
    }
}

/// The bit of a kind that says that there is a lower, an upper limit.
pub(crate) const PRESENT: [i32; 2] = [1, 2];
/// The bit that marks it as strict.
pub(crate) const STRICT: [i32; 2] = [4, 8];
