//! Traces over lent words: another solver's against a run, and a run's own.

mod archive {
    use super::{Replayed, Traced};

    extern "C" {
        pub fn scatterflock_replay(
            words: *const i32,
            word_count: usize,
            trace: *const u32,
            trace_count: usize,
        ) -> Replayed;

        pub fn scatterflock_trace(
            words: *const i32,
            word_count: usize,
            trace: *mut u32,
            trace_room: usize,
        ) -> Traced;
    }
}

/// What [`replay`] hands back.
#[derive(Debug, Clone, Copy, PartialEq, Eq)]
#[repr(C)]
pub struct Replayed {
    /// 0 where the trace is accepted; the number of a
    /// [`Refusal`](crate::Refusal), or 51; 52 wrong, 53 early, 54 past.
    pub number: u32,
    /// Of a wrong step: 0 leaving, 1 entering, 2 the mask. Else 0.
    pub word: u32,
    /// Which step is wrong, from 0. Else 0.
    pub step: usize,
}

/// What [`trace`] hands back.
#[derive(Debug, Clone, Copy, PartialEq, Eq)]
#[repr(C)]
pub struct Traced {
    /// 0, or the number of a [`Refusal`](crate::Refusal).
    pub refused: u32,
    /// How many words were written.
    pub count: usize,
}

/// Holds a trace against the run of a problem: three words for each pivot, the
/// variable that leaves, the one that enters, and the basic ones afterwards,
/// variable v at bit v.
///
/// ```
/// use scatterflock::raw::replay;
///
/// // x + y >= 2, 2x - y >= 0, -x + 2y >= 1
/// let words = [2, 3, 1, 1, 2, -1, -1, 2, 0, 0, 0, 0, 0, 0, 1, 2, 0, 1, 0, 0, 1, 1, 0];
/// assert_eq!(replay(&words, &[2, 0, 0b11001, 4, 1, 0b01011]).number, 0);
/// let wrong = replay(&words, &[2, 0, 0b11001, 4, 2, 0b01011]);
/// assert_eq!((wrong.number, wrong.step, wrong.word), (52, 1, 1));
/// assert_eq!(replay(&words, &[2, 0, 0b11001]).number, 53);
/// assert_eq!(replay(&words, &[2]).number, 51);
/// ```
#[must_use = "it is all that a replay says"]
pub fn replay(words: &[i32], trace: &[u32]) -> Replayed {
    // SAFETY: both pointers are valid for their lengths, and neither is
    // written through.
    unsafe {
        archive::scatterflock_replay(words.as_ptr(), words.len(), trace.as_ptr(), trace.len())
    }
}

/// Writes the trace of a problem's own run at the start of `room`, or leaves
/// it as it was where it is refused: 7 where there are fewer than three words
/// for each pivot.
///
/// ```
/// use scatterflock::raw::trace;
///
/// let words = [2, 3, 1, 1, 2, -1, -1, 2, 0, 0, 0, 0, 0, 0, 1, 2, 0, 1, 0, 0, 1, 1, 0];
/// let mut room = [9; 7];
/// let traced = trace(&words, &mut room);
/// assert_eq!((traced.refused, traced.count), (0, 6));
/// assert_eq!(room, [2, 0, 0b11001, 4, 1, 0b01011, 9]);
/// assert_eq!(trace(&words, &mut room[..5]).refused, 7);
/// ```
#[must_use = "where it is refused, nothing was written"]
pub fn trace(words: &[i32], room: &mut [u32]) -> Traced {
    // SAFETY: both pointers are valid for their lengths, and a lent slice that
    // may be written overlaps no other.
    unsafe {
        archive::scatterflock_trace(words.as_ptr(), words.len(), room.as_mut_ptr(), room.len())
    }
}
