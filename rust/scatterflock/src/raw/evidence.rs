//! The checkers of wide evidence and of evidence about time rows.

mod archive {
    extern "C" {
        pub fn scatterflock_check_wide(
            words: *const i32,
            word_count: usize,
            answer: *const i64,
            answer_count: usize,
        ) -> u32;

        pub fn scatterflock_check_times(
            words: *const i32,
            word_count: usize,
            answer: *const i64,
            answer_count: usize,
        ) -> u32;
    }
}

/// Judges wide evidence for a limit problem, whose numbers have four words each:
/// 8 for accepted, 9 for not, or the number of a [`Refusal`](crate::Refusal).
///
/// ```
/// use scatterflock::raw::check_wide;
///
/// // x is at least 5: 2^32 times 5 over 2^32, and no small part
/// let words = [1, 0, 1, 5, 0];
/// assert_eq!(check_wide(&words, &[1, 0, 0, 1, 0, 0, 0, 5, 0, 0, 0, 0, 0, 0]), 8);
/// assert_eq!(check_wide(&words, &[1, 0, 1, 1, 0, 0, 0, 5, 0, 0, 0, 0, 0, 0]), 9);
/// assert_eq!(check_wide(&words, &[1]), 7);
/// ```
#[must_use = "it is all that the checker says"]
pub fn check_wide(words: &[i32], answer: &[i64]) -> u32 {
    let (read, judged) = (words.as_ptr(), answer.as_ptr());
    // SAFETY: both pointers are valid for their lengths, and neither is
    // written through.
    unsafe { archive::scatterflock_check_wide(read, words.len(), judged, answer.len()) }
}

/// Judges evidence about time rows, times or a cycle: 8 for accepted, 9 for not,
/// or the number of a [`TimesRefusal`](crate::TimesRefusal).
///
/// ```
/// use scatterflock::raw::check_times;
///
/// // x - y <= -3
/// let rows = [2, 1, 0, 1, 0, -3];
/// assert_eq!(check_times(&rows, &[1, 2, -10, -7, 0, 0]), 8);
/// assert_eq!(check_times(&rows, &[1, 2, -10, -7, 1, 0]), 9);
/// assert_eq!(check_times(&rows, &[]), 17);
/// ```
#[must_use = "it is all that the checker says"]
pub fn check_times(rows: &[i32], answer: &[i64]) -> u32 {
    let (read, judged) = (rows.as_ptr(), answer.as_ptr());
    // SAFETY: as in `check_wide`.
    unsafe { archive::scatterflock_check_times(read, rows.len(), judged, answer.len()) }
}
