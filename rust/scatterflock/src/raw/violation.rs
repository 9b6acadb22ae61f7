//! The first violation, of words and of a session.

use super::Session;

mod archive {
    use super::{Session, Violation};

    extern "C" {
        pub fn scatterflock_first_violation(words: *const i32, word_count: usize) -> Violation;

        pub fn scatterflock_session_violation(session: Session) -> Violation;
    }
}

/// What [`first_violation`] and [`session_violation`] hand back.
#[derive(Debug, Clone, Copy, PartialEq, Eq)]
#[repr(C)]
pub struct Violation {
    /// 0, or the number of a [`Refusal`](crate::Refusal).
    pub refused: u32,
    /// Which basic variable is outside its limits: the lowest-numbered one.
    pub variable: u32,
    /// Whether one is. Else, and where it is refused, all other numbers are 0.
    pub violated: bool,
    /// Whether it has to rise: it is below its lower limit. Else it is above
    /// its upper one.
    pub rises: bool,
    /// What the next two numbers are over.
    pub denominator: i64,
    /// By how much it is outside, and how many small amounts more.
    pub shortfall: i64,
    /// The small amounts.
    pub small: i64,
}

/// Shows the first violation at the start of a limit problem.
///
/// ```
/// use scatterflock::raw::first_violation;
///
/// // 2x >= 5
/// let shown = first_violation(&[1, 1, 2, 0, 0, 0, 1, 5, 0]);
/// assert_eq!((shown.refused, shown.violated), (0, true));
/// assert_eq!((shown.variable, shown.rises), (1, true));
/// assert_eq!((shown.shortfall, shown.small, shown.denominator), (5, 0, 1));
/// assert!(!first_violation(&[1, 1, 2, 0, 0, 0, 1, -5, 0]).violated);
/// assert_eq!(first_violation(&[9, 0]).refused, 2);
/// ```
#[must_use = "it is all that is said"]
pub fn first_violation(words: &[i32]) -> Violation {
    // SAFETY: the pointer is valid for its length, and is not written through.
    unsafe { archive::scatterflock_first_violation(words.as_ptr(), words.len()) }
}

/// Shows the first violation of a session as it stands, by the limits that are
/// on. It is never refused.
///
/// ```
/// use scatterflock::raw::{session_open, session_switch, session_violation};
///
/// // 2x >= 5
/// let session = session_open(&[1, 1, 2, 0, 0, 0, 1, 5, 0]).session;
/// assert!(!session_violation(session.clone()).violated);
/// let session = session_switch(session, 1, false, true).session;
/// assert_eq!(session_violation(session).shortfall, 5);
/// ```
#[must_use = "it is all that is said"]
pub fn session_violation(session: Session) -> Violation {
    // SAFETY: a session comes from the archive alone: its field is private, and
    // nothing changes it.
    unsafe { archive::scatterflock_session_violation(session) }
}
