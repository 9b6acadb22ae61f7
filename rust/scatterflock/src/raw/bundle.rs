//! A day's file, over lent bytes and words.

mod archive {
    use super::Contents;

    extern "C" {
        pub fn scatterflock_bundle_read(
            file: *const u8,
            file_count: usize,
            lengths: *mut i32,
            length_room: usize,
            words: *mut i32,
            word_room: usize,
        ) -> Contents;

        pub fn scatterflock_bundle_write(
            edition: u32,
            lengths: *const i32,
            bodies: usize,
            words: *const i32,
            word_count: usize,
            file: *mut u8,
            file_room: usize,
        ) -> u32;

        pub fn scatterflock_day(
            file: *const u8,
            file_count: usize,
            text: *mut u8,
            text_room: usize,
        ) -> usize;

        pub fn scatterflock_sheet(
            file: *const u8,
            file_count: usize,
            text: *mut u8,
            text_room: usize,
        ) -> usize;
    }
}

/// What [`bundle_read`] tells of a file.
#[derive(Debug, Clone, Copy, PartialEq, Eq)]
#[repr(C)]
pub struct Contents {
    /// 0, or the number of a [`BundleRefusal`](crate::BundleRefusal).
    pub refused: u32,
    /// The file's edition; 0 where it is refused.
    pub edition: u32,
    /// How many bodies it has; 0 where it is refused.
    pub bodies: usize,
}

/// Reads a day's file: the lengths of its bodies at the start of `lengths`, and
/// the words of all bodies, one behind the other, at the start of `words`. Where
/// the file is refused, both are as they were.
///
/// ```
/// use scatterflock::raw::{bundle_read, Contents};
///
/// // edition 1, one body, which starts at word 4 and has one word
/// let file = [1, 0, 0, 0, 1, 0, 0, 0, 4, 0, 0, 0, 1, 0, 0, 0, 9, 0, 0, 0];
/// let (mut lengths, mut words) = ([-1; 2], [-1; 2]);
/// let told = bundle_read(&file, &mut lengths, &mut words);
/// assert_eq!(told, Contents { refused: 0, edition: 1, bodies: 1 });
/// assert_eq!((lengths, words), ([1, -1], [9, -1]));
/// assert_eq!(bundle_read(&file, &mut lengths, &mut []).refused, 36);
/// ```
#[must_use = "where it is refused, nothing was written"]
pub fn bundle_read(file: &[u8], lengths: &mut [i32], words: &mut [i32]) -> Contents {
    // SAFETY: every pointer is valid for its length, and a lent slice that may be
    // written overlaps no other.
    unsafe {
        archive::scatterflock_bundle_read(
            file.as_ptr(),
            file.len(),
            lengths.as_mut_ptr(),
            lengths.len(),
            words.as_mut_ptr(),
            words.len(),
        )
    }
}

/// Writes a day's file of an edition at the start of `file`, from the lengths of
/// its bodies and the words of all of them: 0, or the number of a
/// [`BundleRefusal`](crate::BundleRefusal) and `file` as it was. No body is judged.
///
/// ```
/// use scatterflock::raw::bundle_write;
///
/// let mut file = [0xff; 21];
/// assert_eq!(bundle_write(1, &[1], &[9], &mut file), 0);
/// assert_eq!(file, [1, 0, 0, 0, 1, 0, 0, 0, 4, 0, 0, 0, 1, 0, 0, 0, 9, 0, 0, 0, 0xff]);
/// assert_eq!(bundle_write(2, &[2], &[9], &mut file), 35);
/// assert_eq!(bundle_write(3, &[2], &[9], &mut file), 31);
/// ```
#[must_use = "where it is not 0, nothing was written"]
pub fn bundle_write(edition: u32, lengths: &[i32], words: &[i32], file: &mut [u8]) -> u32 {
    // SAFETY: as in `bundle_read`.
    unsafe {
        archive::scatterflock_bundle_write(
            edition,
            lengths.as_ptr(),
            lengths.len(),
            words.as_ptr(),
            words.len(),
            file.as_mut_ptr(),
            file.len(),
        )
    }
}

/// Prints a day's file: each body in its order, or the line of the file's
/// refusal. Returns how long the text is. It stands at the start of `text` if
/// that has room for all of it, and else nothing was written.
///
/// ```
/// let mut text = [b'.'; 12];
/// assert_eq!(scatterflock::raw::day(&[1, 0, 0], &mut text), 11);
/// assert_eq!(&text, b"refused 30\n.");
/// assert_eq!(scatterflock::raw::day(&[1, 0, 0], &mut []), 11);
/// ```
#[must_use = "where it is more than there is room for, nothing was written"]
pub fn day(file: &[u8], text: &mut [u8]) -> usize {
    // SAFETY: as in `bundle_read`.
    unsafe { archive::scatterflock_day(file.as_ptr(), file.len(), text.as_mut_ptr(), text.len()) }
}

/// Prints the auditor's sheet of a day's file, or the line of the file's refusal.
/// Returns how long it is. It stands at the start of `text` if that has room for
/// all of it, and else nothing was written.
///
/// ```
/// let mut text = [b'.'; 12];
/// assert_eq!(scatterflock::raw::sheet(&[0; 8], &mut text), 11);
/// assert_eq!(&text, b"refused 31\n.");
/// assert_eq!(scatterflock::raw::sheet(&[0; 8], &mut []), 11);
/// ```
#[must_use = "where it is more than there is room for, nothing was written"]
pub fn sheet(file: &[u8], text: &mut [u8]) -> usize {
    // SAFETY: as in `bundle_read`.
    unsafe { archive::scatterflock_sheet(file.as_ptr(), file.len(), text.as_mut_ptr(), text.len()) }
}
