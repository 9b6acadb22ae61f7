//! SMT-LIB texts, over lent bytes.

mod archive {
    use super::Exchanged;

    extern "C" {
        pub fn scatterflock_smtlib_write(
            words: *const i32,
            word_count: usize,
            text: *mut u8,
            text_room: usize,
        ) -> Exchanged;

        pub fn scatterflock_smtlib_read(
            text: *const u8,
            text_count: usize,
            words: *mut i32,
            word_room: usize,
        ) -> Exchanged;
    }
}

/// What [`smtlib_write`] and [`smtlib_read`] hand back.
#[derive(Debug, Clone, Copy, PartialEq, Eq)]
#[repr(C)]
pub struct Exchanged {
    /// 0, or the number of a [`Refusal`](crate::Refusal), or 60 for a text with a
    /// token that cannot stand where it does.
    pub refused: u32,
    /// How many bytes the text has, or how many words were read. The place of the
    /// token with 60, and 0 with any other refusal.
    pub count: usize,
}

/// Writes a limit problem as SMT-LIB text: 0 and the text at the start of
/// `text`, or the number of a [`Refusal`](crate::Refusal) and `text` as it was.
///
/// ```
/// use scatterflock::raw::smtlib_write;
///
/// let mut text = [b'?'; 56];
/// let written = smtlib_write(&[1, 0, 0, 0, 0], &mut text);
/// assert_eq!((written.refused, written.count), (0, 55));
/// assert_eq!(&text, b"(set-logic QF_LRA)\n(declare-const x0 Real)\n(check-sat)\n?");
/// assert_eq!(smtlib_write(&[1, 0, 0, 0, 0], &mut text[..54]).refused, 7);
/// assert_eq!(smtlib_write(&[9, 0], &mut text).refused, 2);
/// ```
#[must_use = "where it is refused, nothing was written"]
pub fn smtlib_write(words: &[i32], text: &mut [u8]) -> Exchanged {
    // SAFETY: both pointers are valid for their lengths, and a lent slice that
    // may be written overlaps no other.
    unsafe {
        archive::scatterflock_smtlib_write(
            words.as_ptr(),
            words.len(),
            text.as_mut_ptr(),
            text.len(),
        )
    }
}

/// Reads the words of a limit problem from SMT-LIB text: 0 and the words at the
/// start of `words`, or 60 and the place where the text is refused, or 7, and
/// `words` as they were.
///
/// ```
/// use scatterflock::raw::smtlib_read;
///
/// let text = b"(set-logic QF_LRA) (declare-const x0 Real) (check-sat) ; free";
/// let mut words = [-1; 6];
/// let read = smtlib_read(text, &mut words);
/// assert_eq!((read.refused, read.count), (0, 5));
/// assert_eq!(words, [1, 0, 0, 0, 0, -1]);
/// assert_eq!(smtlib_read(text, &mut words[..4]).refused, 7);
/// let cut = smtlib_read(b"(set-logic QF_LIA)", &mut words);
/// assert_eq!((cut.refused, cut.count), (60, 11));
/// ```
#[must_use = "where it is refused, nothing was written"]
pub fn smtlib_read(text: &[u8], words: &mut [i32]) -> Exchanged {
    let (read, written) = (text.as_ptr(), words.as_mut_ptr());
    // SAFETY: as in `smtlib_write`.
    unsafe { archive::scatterflock_smtlib_read(read, text.len(), written, words.len()) }
}
