//! The run in slices.
//!
//! Renders "The run in slices" of docs/RULES.md.

use crate::answer::{Answer, Verdict};
use crate::pair::Pair;
use crate::problem::{Limits, Problem, Variable};
use crate::run::{conflict_of_one, State, Step};
use crate::tableau::Tableau;
use std::collections::BTreeMap;

/// A run at some point: its problem, and the tableau, the values and the
/// number of completed pivots there.
#[derive(Clone)]
pub struct Slice {
    problem: Problem,
    tableau: Tableau,
    values: BTreeMap<Variable, Pair>,
    pivots: u64,
}

/// What a continue hands back.
pub struct Continued {
    /// 0, or 7.
    pub number: u32,
    /// Whether the answer stands in the output.
    pub answered: bool,
    /// The state to go on with. Where there is an answer, the finished one.
    pub slice: Slice,
}

impl Slice {
    /// The state of a problem before any pivot.
    ///
    /// # Errors
    ///
    /// The refusal of words that are no problem.
    pub fn start(words: &[i32]) -> Result<Slice, u32> {
        let problem = Problem::read(words)?;
        let State { tableau, values, .. } = State::start(&problem);
        Ok(Slice { problem, tableau, values, pivots: 0 })
    }

    /// Goes on by so many pivots, and no further than the end of the run. Writes
    /// the answer if there are no more after them, and else nothing.
    pub fn go_on(&self, pivots: u64, out: &mut [i64]) -> Continued {
        let length = self.problem.answer_length();
        if out.len() < length {
            return Continued { number: 7, answered: false, slice: self.clone() };
        }
        let (slice, answer) = self.continued(pivots);
        if let Some(answer) = &answer {
            out[..length].copy_from_slice(&answer.words(self.problem.variables()));
        }
        Continued { number: 0, answered: answer.is_some(), slice }
    }

    /// How many pivots are completed.
    pub fn pivots(&self) -> u64 {
        self.pivots
    }

    fn continued(&self, pivots: u64) -> (Slice, Option<Answer>) {
        if let Some(crossed) = self.problem.limits.iter().position(Limits::crossed) {
            let verdict = Verdict::Cannot(conflict_of_one(&self.problem, crossed));
            return (self.clone(), Some(Answer { verdict, pivots: 0 }));
        }
        let mut slice = self.clone();
        loop {
            let done = slice.pivots - self.pivots;
            let step = slice.state().step();
            match step {
                Step::Ended(verdict) => {
                    let answer = Answer { verdict, pivots: slice.pivots as i64 };
                    return (slice, Some(answer));
                }
                Step::Moved(_) if done == pivots => return (slice, None),
                Step::Moved(State { tableau, values, .. }) => {
                    let pivots = slice.pivots + 1;
                    slice = Slice { problem: self.problem.clone(), tableau, values, pivots };
                }
            }
        }
    }

    fn state(&self) -> State<'_> {
        let (tableau, values) = (self.tableau.clone(), self.values.clone());
        State { problem: &self.problem, tableau, values }
    }
}
