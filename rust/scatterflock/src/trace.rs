//! Traces: the pivots of a run, step by step.

use crate::answer::solve;
use crate::problem::Problem;
use crate::raw;
use crate::refusal::Refusal;
use std::fmt;

/// What another solver's trace comes to, held against the run of its problem.
///
/// ```
/// use scatterflock::{Problem, Replayed, TraceWord};
///
/// // x + y >= 2, 2x - y >= 0, -x + 2y >= 1
/// let problem = Problem::new(2)?
///     .row(&[1, 1])?
///     .at_least(2, 2)?
///     .row(&[2, -1])?
///     .at_least(3, 0)?
///     .row(&[-1, 2])?
///     .at_least(4, 1)?;
/// // 2 leaves and 0 enters, then 0, 3 and 4 are basic; 4 leaves and 1 enters,
/// // then 0, 1 and 3 are
/// let trace = [2, 0, 0b11001, 4, 1, 0b01011];
/// assert_eq!(problem.replay(&trace), Replayed::Accepted);
/// assert_eq!(problem.trace(), trace);
///
/// let wrong = problem.replay(&[2, 0, 0b11001, 3, 1, 0b01011]);
/// assert_eq!(wrong, Replayed::Wrong { step: 1, word: TraceWord::Leaving });
/// assert_eq!(problem.replay(&trace[..3]), Replayed::Early);
/// # Ok::<(), scatterflock::BuildError>(())
/// ```
#[derive(Debug, Clone, Copy, PartialEq, Eq, Hash)]
#[must_use]
pub enum Replayed {
    /// Each step is the run's own, and the run is over after the last.
    Accepted,
    /// 51: the words are not three for each step.
    LeftOver,
    /// 52: a step is not the run's own. It is the first such step, with the
    /// first of its words that differs.
    Wrong {
        /// From 0.
        step: usize,
        /// Which word of it.
        word: TraceWord,
    },
    /// 53: the steps are the run's own, and the run goes on after the last.
    Early,
    /// 54: the run is over, and there are steps left.
    Past,
}

/// A word of a step.
#[derive(Debug, Clone, Copy, PartialEq, Eq, Hash)]
pub enum TraceWord {
    /// The variable that leaves.
    Leaving = 0,
    /// The variable that enters.
    Entering = 1,
    /// The basic variables afterwards, variable v at bit v.
    Mask = 2,
}

impl TraceWord {
    /// Every word of a step, in order.
    pub const ALL: [TraceWord; 3] = [TraceWord::Leaving, TraceWord::Entering, TraceWord::Mask];
}

impl Replayed {
    /// The number in docs/RULES.md: 0, or 51 to 54.
    #[must_use]
    pub const fn number(self) -> u32 {
        match self {
            Replayed::Accepted => 0,
            Replayed::LeftOver => 51,
            Replayed::Wrong { .. } => 52,
            Replayed::Early => 53,
            Replayed::Past => 54,
        }
    }
}

impl fmt::Display for Replayed {
    fn fmt(&self, to: &mut fmt::Formatter) -> fmt::Result {
        match self {
            Replayed::Accepted => to.write_str("accepted"),
            Replayed::LeftOver => to.write_str("the words are not three for each step"),
            Replayed::Wrong { step, word } => write!(to, "step {step}: {word} is wrong"),
            Replayed::Early => to.write_str("the run goes on after the last step"),
            Replayed::Past => to.write_str("the run is over before the last step"),
        }
    }
}

impl fmt::Display for TraceWord {
    fn fmt(&self, to: &mut fmt::Formatter) -> fmt::Result {
        to.write_str(match self {
            TraceWord::Leaving => "the leaving variable",
            TraceWord::Entering => "the entering variable",
            TraceWord::Mask => "the set of basic variables",
        })
    }
}

/// Holds a trace against the run of the limit problem of these words.
///
/// # Errors
///
/// The refusal of words that are no problem: the first that applies.
pub fn replay(words: &[i32], trace: &[u32]) -> Result<Replayed, Refusal> {
    let told = raw::replay(words, trace);
    match told.number {
        0 => Ok(Replayed::Accepted),
        51 => Ok(Replayed::LeftOver),
        52 => Ok(Replayed::Wrong { step: told.step, word: TraceWord::ALL[told.word as usize] }),
        53 => Ok(Replayed::Early),
        54 => Ok(Replayed::Past),
        number => Err(Refusal::try_from(number).expect("a replay returns no other number")),
    }
}

/// The trace of the limit problem of these words: three words for each pivot of
/// its run. [`replay`] accepts it, and no other.
///
/// # Errors
///
/// The refusal of words that are no problem: the first that applies.
///
/// # Panics
///
/// If a run had another count of pivots than its answer tells: that it has not
/// is proved.
pub fn trace(words: &[i32]) -> Result<Vec<u32>, Refusal> {
    let pivots = usize::try_from(solve(words)?.pivots).expect("a count of pivots fits");
    let mut room = vec![0; 3 * pivots];
    let traced = raw::trace(words, &mut room);
    assert_eq!((traced.refused, traced.count), (0, room.len()));
    Ok(room)
}

impl Problem {
    /// Holds another solver's trace against the run of this problem.
    pub fn replay(&self, trace: &[u32]) -> Replayed {
        replay(&self.words(), trace).expect("a problem that was built is not refused")
    }

    /// The trace of its own run.
    #[must_use]
    pub fn trace(&self) -> Vec<u32> {
        trace(&self.words()).expect("a problem that was built is not refused")
    }
}
