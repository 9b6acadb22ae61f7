//! An answer about limits, in numbers of 128 bits, whichever words it came in.

use crate::{own, Failure};
use scatterflock::{check, Answer, Judgement, Problem, Verdict, WideVerdict};
use text::limits::Limits;

/// An answer, which the checker of its words has accepted where it is evidence,
/// and which is right in the text's own numbers too.
pub struct Found {
    /// How many pivots it took.
    pub pivots: u64,
    /// There is none where the run is out of range.
    pub verdict: Option<WideVerdict>,
    /// The words of the answer.
    pub words: Vec<i64>,
    /// Of wide evidence, how many pivots the run had completed when it left the
    /// range.
    pub left_range_after: Option<u64>,
}

impl Found {
    /// Of a problem whose words are not refused, the solver's answer; where that is
    /// out of range and a wide one is asked for, the wide one.
    ///
    /// # Errors
    ///
    /// The answer is contradicted, by the checker or by the text.
    pub fn of(problem: &Limits, answer: &Answer, is_wide: bool) -> Result<Found, Failure> {
        match &answer.verdict {
            Verdict::OutOfRange if is_wide => Found::wide(problem, answer.pivots),
            _ => Found::narrow(problem, answer),
        }
    }

    fn narrow(problem: &Limits, answer: &Answer) -> Result<Found, Failure> {
        let evidence = answer.evidence();
        let is_accepted = evidence
            .as_ref()
            .is_none_or(|words| check(&problem.words(), words) == Ok(Judgement::Accepted));
        let words = evidence.unwrap_or_else(|| {
            let zeros = vec![0; 2 * problem.limits.len()];
            [&[3, answer.pivots as i64, 0], &zeros[..]].concat()
        });
        let verdict = widened(&answer.verdict);
        let found = Found { pivots: answer.pivots, verdict, words, left_range_after: None };
        found.if_right(problem, is_accepted)
    }

    /// The wrapper hands no wide answer out that the checker has not accepted.
    fn wide(problem: &Limits, left_range_after: u64) -> Result<Found, Failure> {
        let decided = Problem::from_words(&problem.words()).ok().and_then(|built| built.decide());
        let answer = decided.ok_or(Failure::Contradicted)?;
        let words = answer.evidence();
        let left_range_after = Some(left_range_after);
        let verdict = Some(answer.verdict);
        let found = Found { pivots: answer.pivots, verdict, words, left_range_after };
        found.if_right(problem, true)
    }

    fn if_right(self, problem: &Limits, is_accepted: bool) -> Result<Found, Failure> {
        let agrees = own::agrees(problem, &self.verdict);
        if is_accepted && agrees {
            Ok(self)
        } else {
            Err(Failure::Contradicted)
        }
    }
}

/// The verdict of narrow words in wide numbers.
pub fn widened(verdict: &Verdict) -> Option<WideVerdict> {
    let wide = |words: &[i64]| words.iter().map(|&word| word.into()).collect();
    match verdict {
        Verdict::Can { over, numerators, small } => Some(WideVerdict::Can {
            over: (*over).into(),
            numerators: wide(numerators),
            small: wide(small),
        }),
        Verdict::Cannot { lower, upper } => {
            Some(WideVerdict::Cannot { lower: wide(lower), upper: wide(upper) })
        }
        _ => None,
    }
}
