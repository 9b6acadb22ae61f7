//! The archive's functions over lent words, with the numbers that they return.
//! Nothing is allocated.

mod bundle;
mod evidence;
mod smtlib;
mod traces;
mod violation;

pub use bundle::{bundle_read, bundle_write, day, sheet, Contents};
pub use evidence::{check_times, check_wide};
pub use smtlib::{smtlib_read, smtlib_write, Exchanged};
pub use traces::{replay, trace, Replayed, Traced};
pub use violation::{first_violation, session_violation, Violation};

mod archive {
    use super::{Begun, Checked, Continued, Opened, Session, Slice, Switched};

    extern "C" {
        pub fn scatterflock_solve(
            words: *const i32,
            word_count: usize,
            out: *mut i64,
            out_count: usize,
        ) -> u32;

        pub fn scatterflock_solve_within(
            most_rows: u32,
            words: *const i32,
            word_count: usize,
            out: *mut i64,
            out_count: usize,
        ) -> u32;

        pub fn scatterflock_check(
            words: *const i32,
            word_count: usize,
            answer: *const i64,
            answer_count: usize,
        ) -> u32;

        pub fn scatterflock_times(
            words: *const i32,
            word_count: usize,
            out: *mut i64,
            out_count: usize,
        ) -> u32;

        pub fn scatterflock_slice_start(words: *const i32, word_count: usize) -> Begun;

        pub fn scatterflock_slice_continue(
            slice: Slice,
            pivots: usize,
            out: *mut i64,
            out_count: usize,
        ) -> Continued;

        pub fn scatterflock_session_open(words: *const i32, word_count: usize) -> Opened;

        pub fn scatterflock_session_switch(
            session: Session,
            variable: u32,
            upper: bool,
            on: bool,
        ) -> Switched;

        pub fn scatterflock_session_check(
            session: Session,
            out: *mut i64,
            out_count: usize,
        ) -> Checked;
    }
}

/// A run at some point, as the archive hands it back and takes it again. What
/// is in it is the archive's own.
#[derive(Debug, Clone)]
#[repr(C)]
pub struct Slice {
    count: usize,
    tableau: [u64; SLICE_WORDS],
}

/// The words of 64 bits that the archive keeps in a slice, beside the count.
const SLICE_WORDS: usize = 187;

impl Slice {
    /// How many pivots are completed.
    #[must_use]
    pub fn count(&self) -> usize {
        self.count
    }
}

/// What [`slice_start`] hands back.
#[derive(Debug, Clone)]
#[repr(C)]
pub struct Begun {
    /// 0, or the number of a [`Refusal`](crate::Refusal).
    pub refused: u32,
    /// The first state of the run. Where the words are refused, that of a
    /// problem with nothing to do.
    pub slice: Slice,
}

/// What [`slice_continue`] hands back.
#[derive(Debug, Clone)]
#[repr(C)]
pub struct Continued {
    /// 0, or 7 where the output is too short.
    pub refused: u32,
    /// Whether the answer stands in the output.
    pub answered: bool,
    /// The state to go on with; where it is refused, the state that it was.
    pub slice: Slice,
}

/// A session, as the archive hands it back and takes it again: a problem, which
/// of its limits are on, and the tableau and the values that the next check
/// starts from. What is in it is the archive's own.
#[derive(Debug, Clone)]
#[repr(C)]
pub struct Session {
    tableau: [u64; SESSION_WORDS],
}

/// The words of 64 bits that the archive keeps in a session.
const SESSION_WORDS: usize = SLICE_WORDS;

/// What [`session_open`] hands back.
#[derive(Debug, Clone)]
#[repr(C)]
pub struct Opened {
    /// 0, or the number of a [`Refusal`](crate::Refusal).
    pub refused: u32,
    /// The session with every limit off. Where the words are refused, that of a
    /// problem with nothing to switch.
    pub session: Session,
}

/// What [`session_switch`] hands back.
#[derive(Debug, Clone)]
#[repr(C)]
pub struct Switched {
    /// 0, or the number of a [`SwitchRefusal`](crate::SwitchRefusal).
    pub refused: u32,
    /// The session after the switch; where it is refused, the one that it was.
    pub session: Session,
}

/// What [`session_check`] hands back.
#[derive(Debug, Clone)]
#[repr(C)]
pub struct Checked {
    /// 0, or 7 where the output is too short.
    pub refused: u32,
    /// The session after the check; where it is refused, the one that it was.
    pub session: Session,
}

/// Answers a limit problem: 0 and the answer's words at the start of `out`,
/// or the number of a [`Refusal`](crate::Refusal) and `out` as it was.
///
/// ```
/// let mut out = [-1; 6];
/// assert_eq!(scatterflock::raw::solve(&[1, 0, 0, 0, 0], &mut out), 0);
/// assert_eq!(out, [1, 0, 1, 0, 0, -1]);
/// assert_eq!(scatterflock::raw::solve(&[9, 0], &mut out), 2);
/// assert_eq!(out, [1, 0, 1, 0, 0, -1]);
/// ```
#[must_use = "where it is not 0, nothing was written"]
pub fn solve(words: &[i32], out: &mut [i64]) -> u32 {
    // SAFETY: both pointers are valid for their lengths, and a lent slice that
    // may be written overlaps no other.
    unsafe { archive::scatterflock_solve(words.as_ptr(), words.len(), out.as_mut_ptr(), out.len()) }
}

/// The same where a problem may have only so many rows: 2 for one with more. A
/// number above [`MOST_ROWS`](crate::sizes::MOST_ROWS) stands for that one.
///
/// ```
/// let mut out = [-1; 7];
/// let words = [1, 1, 5, 0, 0, 0, 0, 0, 0]; // a row of 5 times the variable
/// assert_eq!(scatterflock::raw::solve_within(0, &words, &mut out), 2);
/// assert_eq!(out, [-1; 7]);
/// assert_eq!(scatterflock::raw::solve_within(1, &words, &mut out), 0);
/// assert_eq!(out, [1, 0, 1, 0, 0, 0, 0]);
/// ```
#[must_use = "where it is not 0, nothing was written"]
pub fn solve_within(most_rows: u32, words: &[i32], out: &mut [i64]) -> u32 {
    let (read, written) = (words.as_ptr(), out.as_mut_ptr());
    // SAFETY: as in `solve`.
    unsafe { archive::scatterflock_solve_within(most_rows, read, words.len(), written, out.len()) }
}

/// Judges an answer to a limit problem: 8 for accepted, 9 for not, or the
/// number of a [`Refusal`](crate::Refusal).
///
/// ```
/// assert_eq!(scatterflock::raw::check(&[1, 0, 0, 0, 0], &[1, 0, 1, 7, 0]), 8);
/// assert_eq!(scatterflock::raw::check(&[1, 0, 0, 0, 0], &[1, 0, 0, 7, 0]), 9);
/// assert_eq!(scatterflock::raw::check(&[1, 0, 0, 0, 0], &[1]), 7);
/// ```
#[must_use = "it is all that the checker says"]
pub fn check(words: &[i32], answer: &[i64]) -> u32 {
    // SAFETY: both pointers are valid for their lengths, and neither is
    // written through.
    unsafe {
        archive::scatterflock_check(words.as_ptr(), words.len(), answer.as_ptr(), answer.len())
    }
}

/// Answers time rows: 0 and times or a cycle at the start of `out`, or the
/// number of a [`TimesRefusal`](crate::TimesRefusal) and `out` as it was.
///
/// ```
/// let mut out = [-1; 7];
/// assert_eq!(scatterflock::raw::times(&[2, 1, 0, 1, 0, -3], &mut out), 0);
/// assert_eq!(out, [1, 2, 0, 3, 0, 0, -1]);
/// assert_eq!(scatterflock::raw::times(&[], &mut out), 11);
/// ```
#[must_use = "where it is not 0, nothing was written"]
pub fn times(rows: &[i32], out: &mut [i64]) -> u32 {
    // SAFETY: as in `solve`.
    unsafe { archive::scatterflock_times(rows.as_ptr(), rows.len(), out.as_mut_ptr(), out.len()) }
}

/// Starts a run that is made in slices. No pivot is made yet, and nothing is
/// answered, even where the run has none.
///
/// ```
/// let begun = scatterflock::raw::slice_start(&[1, 0, 0, 0, 0]);
/// assert_eq!((begun.refused, begun.slice.count()), (0, 0));
/// assert_eq!(scatterflock::raw::slice_start(&[9, 0]).refused, 2);
/// ```
#[must_use = "it is all that a start does"]
pub fn slice_start(words: &[i32]) -> Begun {
    // SAFETY: the pointer is valid for its length, and is not written through.
    unsafe { archive::scatterflock_slice_start(words.as_ptr(), words.len()) }
}

/// Goes on with a run by so many pivots, and no further than its end, and
/// writes the answer at the start of `out` if no more are left then.
///
/// ```
/// use scatterflock::raw::{slice_continue, slice_start};
///
/// let slice = slice_start(&[1, 0, 0, 0, 0]).slice;
/// let mut out = [-1; 6];
/// let next = slice_continue(slice, 0, &mut out);
/// assert!(next.refused == 0 && next.answered);
/// assert_eq!(out, [1, 0, 1, 0, 0, -1]);
/// assert_eq!(slice_continue(next.slice, 0, &mut []).refused, 7);
/// ```
#[must_use = "it has the state to go on with"]
#[inline]
pub fn slice_continue(slice: Slice, pivots: usize, out: &mut [i64]) -> Continued {
    // SAFETY: the pointer is valid for its length. A slice comes from the
    // archive alone: its fields are private, and nothing changes them.
    unsafe { archive::scatterflock_slice_continue(slice, pivots, out.as_mut_ptr(), out.len()) }
}

/// Opens a session of a problem: every limit is off, and each of the problem's
/// own variables is 0.
///
/// ```
/// let opened = scatterflock::raw::session_open(&[1, 0, 1, 5, 0]);
/// assert_eq!(opened.refused, 0);
/// assert_eq!(scatterflock::raw::session_open(&[9, 0]).refused, 2);
/// ```
#[must_use = "it is all that opening does"]
pub fn session_open(words: &[i32]) -> Opened {
    // SAFETY: the pointer is valid for its length, and is not written through.
    unsafe { archive::scatterflock_session_open(words.as_ptr(), words.len()) }
}

/// Switches the lower or the upper limit of a variable on or off.
///
/// ```
/// use scatterflock::raw::{session_open, session_switch};
///
/// let session = session_open(&[1, 0, 1, 5, 0]).session;
/// let next = session_switch(session, 0, false, true);
/// assert_eq!(next.refused, 0);
/// let again = session_switch(next.session, 0, false, true);
/// assert_eq!(again.refused, 43);
/// assert_eq!(session_switch(again.session, 0, true, true).refused, 42);
/// ```
#[must_use = "it has the session to go on with"]
#[inline]
pub fn session_switch(session: Session, variable: u32, upper: bool, on: bool) -> Switched {
    // SAFETY: a session comes from the archive alone: its field is private, and
    // nothing changes it.
    unsafe { archive::scatterflock_session_switch(session, variable, upper, on) }
}

/// Answers the problem with the limits that are on, from where the session
/// stands: the answer at the start of `out`, its own pivots counted alone.
///
/// ```
/// use scatterflock::raw::{session_check, session_open, session_switch};
///
/// let session = session_open(&[1, 0, 1, 5, 0]).session;
/// let mut out = [-1; 6];
/// let next = session_check(session, &mut out);
/// assert_eq!((next.refused, out), (0, [1, 0, 1, 0, 0, -1]));
/// let session = session_switch(next.session, 0, false, true).session;
/// let next = session_check(session, &mut out);
/// assert_eq!((next.refused, out), (0, [1, 0, 1, 5, 0, -1]));
/// assert_eq!(session_check(next.session, &mut out[..4]).refused, 7);
/// ```
#[must_use = "it has the session to go on with"]
#[inline]
pub fn session_check(session: Session, out: &mut [i64]) -> Checked {
    // SAFETY: the pointer is valid for its length. Of the session as in
    // `session_switch`.
    unsafe { archive::scatterflock_session_check(session, out.as_mut_ptr(), out.len()) }
}
