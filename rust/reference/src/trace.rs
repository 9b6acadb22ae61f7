//! Traces: the pivots of a run, and another solver's held against them.
//!
//! Renders "Replaying a trace" of docs/RULES.md.

use crate::problem::{Limits, Problem};
use crate::run::{State, Step};

/// What a trace comes to.
#[derive(Debug, Clone, Copy, PartialEq, Eq)]
pub struct Replayed {
    /// 0, a refusal, or 52 to 54.
    pub number: u32,
    /// Which word of a wrong step differs, from 0. Else 0.
    pub word: u32,
    /// Which step is wrong, from 0. Else 0.
    pub step: usize,
}

/// The trace of a problem's run: for each completed pivot the leaving variable,
/// the entering one, and the basic ones afterwards, variable v at bit v.
///
/// # Errors
///
/// The refusal of words that are no problem.
pub fn trace(words: &[i32]) -> Result<Vec<u32>, u32> {
    Ok(steps(&Problem::read(words)?).concat())
}

/// Holds a trace against the run of a problem.
pub fn replay(words: &[i32], trace: &[u32]) -> Replayed {
    let problem = match Problem::read(words) {
        Ok(problem) => problem,
        Err(refusal) => return told(refusal),
    };
    if !trace.len().is_multiple_of(3) {
        return told(51);
    }
    let own = steps(&problem);
    for (step, (given, own)) in trace.chunks(3).zip(&own).enumerate() {
        if let Some(word) = (0..3).find(|&word| given[word] != own[word]) {
            return Replayed { number: 52, word: word as u32, step };
        }
    }
    match (trace.len() / 3).cmp(&own.len()) {
        std::cmp::Ordering::Less => told(53),
        std::cmp::Ordering::Equal => told(0),
        std::cmp::Ordering::Greater => told(54),
    }
}

fn told(number: u32) -> Replayed {
    Replayed { number, word: 0, step: 0 }
}

/// Every pivot that the run completes. Limits that are crossed leave none, and
/// the pivot that leads out of range is not completed.
fn steps(problem: &Problem) -> Vec<[u32; 3]> {
    let mut steps = Vec::new();
    if problem.limits.iter().any(Limits::crossed) {
        return steps;
    }
    let mut state = State::start(problem);
    while let (Some((leaving, entering)), Step::Moved(next)) = (state.exchange(), state.step()) {
        let basic = next.tableau.rows.keys().map(|&variable| 1 << variable).sum();
        steps.push([leaving as u32, entering as u32, basic]);
        state = next;
    }
    steps
}
