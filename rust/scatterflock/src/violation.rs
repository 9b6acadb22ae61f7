//! The first violation: which variable a run would move first, and by how much.

use crate::problem::{Problem, Side};
use crate::raw;
use crate::refusal::Refusal;
use crate::session::Session;
use std::fmt;

/// Of the basic variables that are outside of a limit, the lowest-numbered,
/// which a run would move first. At the start of a problem the variables of its rows are basic.
///
/// ```
/// use scatterflock::{Problem, Side};
///
/// // x + y >= 2, 2x - y >= 0, -x + 2y >= 1, from x = 0 and y = 0
/// let problem = Problem::new(2)?
///     .row(&[1, 1])?
///     .at_least(2, 2)?
///     .row(&[2, -1])?
///     .at_least(3, 0)?
///     .row(&[-1, 2])?
///     .at_least(4, 1)?;
/// let first = problem.first_violation().unwrap();
/// assert_eq!((first.variable, first.side), (2, Side::Lower));
/// assert_eq!((first.shortfall, first.small, first.over), (2, 0, 1));
/// assert_eq!(first.to_string(), "variable 2 is below its lower limit by 2/1");
/// # Ok::<(), scatterflock::BuildError>(())
/// ```
#[derive(Debug, Clone, Copy, PartialEq, Eq, Hash)]
pub struct Violation {
    /// Its number.
    pub variable: usize,
    /// Which of its limits it is outside of. Below the lower one it has to
    /// rise, above the upper one to fall.
    pub side: Side,
    /// What both parts of the shortfall are over: above 0.
    pub over: i64,
    /// How far its value is from that limit. It is not below 0.
    pub shortfall: i64,
    /// .. and how many small amounts more, as a strict limit asks for them.
    /// Where `shortfall` is 0 it is above 0.
    pub small: i64,
}

impl Violation {
    fn read(shown: raw::Violation) -> Option<Violation> {
        shown.violated.then_some(Violation {
            variable: shown.variable as usize,
            side: if shown.rises { Side::Lower } else { Side::Upper },
            over: shown.denominator,
            shortfall: shown.shortfall,
            small: shown.small,
        })
    }
}

impl fmt::Display for Violation {
    fn fmt(&self, to: &mut fmt::Formatter) -> fmt::Result {
        let outside = match self.side {
            Side::Lower => "below its lower limit",
            Side::Upper => "above its upper limit",
        };
        let Violation { variable, shortfall, small, over, .. } = self;
        write!(to, "variable {variable} is {outside} by {shortfall}/{over}")?;
        if *small != 0 {
            write!(to, ", and by {small}/{over} of a small amount")?;
        }
        Ok(())
    }
}

/// The first violation at the start of the limit problem of these words, or
/// none. Whether limits cross is not asked.
///
/// # Errors
///
/// The refusal of words that are no problem: the first that applies.
pub fn first_violation(words: &[i32]) -> Result<Option<Violation>, Refusal> {
    let shown = raw::first_violation(words);
    match shown.refused {
        0 => Ok(Violation::read(shown)),
        number => Err(Refusal::try_from(number).expect("it is 0 or a refusal")),
    }
}

impl Problem {
    /// The first violation at the start of its run, or none.
    #[must_use]
    pub fn first_violation(&self) -> Option<Violation> {
        first_violation(&self.words()).expect("a problem that was built is not refused")
    }
}

impl Session {
    /// The first violation as the session stands, by the limits that are on, or
    /// none. Nothing changes.
    #[must_use]
    pub fn violation(&self) -> Option<Violation> {
        Violation::read(raw::session_violation(self.raw()))
    }
}
