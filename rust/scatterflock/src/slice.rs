//! Runs that are made some pivots at a time.

use crate::answer::Answer;
use crate::raw;
use crate::refusal::Refusal;
use crate::sizes::MOST_ANSWER;

/// A run that is made in slices: some pivots now, others later, with the
/// answer and the count of one uncut run.
///
/// ```
/// use scatterflock::{solve, Slice};
///
/// // x + y >= 2, 2x - y >= 0, -x + 2y >= 1
/// let words = [2, 3, 1, 1, 2, -1, -1, 2, 0, 0, 0, 0, 0, 0, 1, 2, 0, 1, 0, 0, 1, 1, 0];
/// let mut run = Slice::start(&words)?;
/// assert_eq!(run.go_on(1), None);
/// assert_eq!(run.pivots(), 1);
/// assert_eq!(run.go_on(1), Some(solve(&words)?));
///
/// // A run that is over stays so.
/// assert_eq!(run.go_on(5), Some(solve(&words)?));
/// assert_eq!(run.pivots(), 2);
/// # Ok::<(), scatterflock::Refusal>(())
/// ```
#[derive(Debug, Clone)]
pub struct Slice {
    state: raw::Slice,
    variables: usize,
}

impl Slice {
    /// The run of the limit problem of these words, before any pivot.
    ///
    /// # Errors
    ///
    /// The refusal of words that are no problem: the first that applies.
    pub fn start(words: &[i32]) -> Result<Slice, Refusal> {
        let begun = raw::slice_start(words);
        match begun.refused {
            0 => Ok(Slice { state: begun.slice, variables: (words[0] + words[1]) as usize }),
            number => Err(Refusal::try_from(number).expect("a start returns 0 or a refusal")),
        }
    }

    /// Goes on by so many pivots, and no further than the end of the run. The
    /// answer comes as soon as none is left.
    pub fn go_on(&mut self, pivots: usize) -> Option<Answer> {
        let mut out = [0; MOST_ANSWER];
        let next = raw::slice_continue(self.state.clone(), pivots, &mut out);
        self.state = next.slice;
        next.answered.then(|| Answer::read(&out[..3 + 2 * self.variables]))
    }

    /// How many pivots are completed.
    #[must_use]
    pub fn pivots(&self) -> u64 {
        self.state.count() as u64
    }
}
