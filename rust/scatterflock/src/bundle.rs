//! Days' files: many problems in one.

use crate::bundle_refusal::BundleRefusal;
use crate::problem::Problem;
use crate::raw;
use crate::refusal::Refusal;
use crate::sizes::{FIRST_ROWS, MOST_BODIES, MOST_DAY_TEXT, MOST_FILE_WORDS, MOST_ROWS};

/// A day's file: the words of many problems. They are not judged before they are
/// asked for, so a body may be one that is refused.
///
/// ```
/// use scatterflock::{Bundle, Refusal};
///
/// let problem = [1, 0, 1, 5, 0]; // x is at least 5
/// let bundle = Bundle::of(&[&problem[..], &[7], &[]])?;
/// let file = bundle.write();
/// assert_eq!(file.len(), 4 * (2 + 2 * 3 + 6));
///
/// let bundle = Bundle::read(&file)?;
/// assert_eq!((bundle.edition(), bundle.bodies().count()), (1, 3));
/// let problems: Vec<_> = bundle.problems().collect();
/// assert_eq!(problems[0].as_ref().unwrap().solve().to_string(), "can, after 0 pivots: 5/1");
/// assert_eq!(problems[1], Err(Refusal::FewWords));
/// assert_eq!(bundle.day(), "can\npivots 0\nover 1\n0 5\nrefused 1\nrefused 1\n");
/// # Ok::<(), scatterflock::BundleRefusal>(())
/// ```
#[derive(Debug, Clone, PartialEq, Eq, Hash)]
pub struct Bundle {
    edition: u32,
    /// Such as the archive takes: it has written or read them.
    lengths: Vec<i32>,
    words: Vec<i32>,
}

/// How many rows a body may have, in a file of an edition that there is.
fn rows_in(edition: u32) -> usize {
    if edition == 1 {
        FIRST_ROWS
    } else {
        MOST_ROWS
    }
}

/// The refusal of a body, in a file of such an edition.
fn judged(edition: u32, body: &[i32]) -> Option<Refusal> {
    Problem::refusal_within(rows_in(edition), body)
}

impl Bundle {
    /// The bundle of these bodies, in this order: of edition 1, or of edition 2 if
    /// some body has more than 16 rows and edition 2 would take it.
    ///
    /// # Errors
    ///
    /// [`BundleRefusal::Bodies`] if there are more than 64, or more than 48 in
    /// edition 2, and [`BundleRefusal::Size`] if their file would have more than
    /// 16,384 words.
    pub fn of<B: AsRef<[i32]>>(bodies: &[B]) -> Result<Bundle, BundleRefusal> {
        let is_second = |body: &B| judged(1, body.as_ref()) != judged(2, body.as_ref());
        Bundle::of_edition(if bodies.iter().any(is_second) { 2 } else { 1 }, bodies)
    }

    /// The bundle of these bodies, in this order and in this edition.
    ///
    /// ```
    /// use scatterflock::{Bundle, BundleRefusal, Refusal};
    ///
    /// // one variable and 17 rows without limits
    /// let body = [&[1, 17], &[1; 17][..], &[0; 54]].concat();
    /// assert_eq!(Bundle::of(&[&body])?.edition(), 2);
    /// let first = Bundle::of_edition(1, &[&body])?;
    /// assert_eq!(first.problems().next(), Some(Err(Refusal::Sizes)));
    /// assert_eq!(Bundle::of_edition(3, &[&body]), Err(BundleRefusal::Edition));
    /// # Ok::<(), scatterflock::BundleRefusal>(())
    /// ```
    ///
    /// # Errors
    ///
    /// As for [`Bundle::of`]; and first of all [`BundleRefusal::Edition`], if there
    /// is no such edition.
    pub fn of_edition<B: AsRef<[i32]>>(
        edition: u32,
        bodies: &[B],
    ) -> Result<Bundle, BundleRefusal> {
        let length = |body: &B| i32::try_from(body.as_ref().len()).unwrap_or(i32::MAX);
        let lengths: Vec<i32> = bodies.iter().map(length).collect();
        let words = bodies.iter().flat_map(|body| body.as_ref()).copied().collect();
        let bundle = Bundle { edition, lengths, words };
        bundle.written().map(|_| bundle)
    }

    /// The bundle of a file.
    ///
    /// # Errors
    ///
    /// The refusal of bytes that are no day's file: the first that applies.
    pub fn read(file: &[u8]) -> Result<Bundle, BundleRefusal> {
        let (mut lengths, mut words) = (vec![0; MOST_BODIES], vec![0; file.len() / 4]);
        let told = raw::bundle_read(file, &mut lengths, &mut words);
        if told.refused != 0 {
            return Err(BundleRefusal::of(told.refused));
        }
        lengths.truncate(told.bodies);
        words.truncate(words.len() - (2 + 2 * told.bodies));
        Ok(Bundle { edition: told.edition, lengths, words })
    }

    /// Its file. Reading that gives the same bundle, and writing what was read the
    /// same bytes.
    #[must_use]
    pub fn write(&self) -> Vec<u8> {
        self.written().expect("a bundle that is there can be written")
    }

    fn written(&self) -> Result<Vec<u8>, BundleRefusal> {
        let size = 2 + 2 * self.lengths.len() + self.words.len();
        let mut file = vec![0; 4 * size.min(MOST_FILE_WORDS)];
        match raw::bundle_write(self.edition, &self.lengths, &self.words, &mut file) {
            0 => Ok(file),
            number => Err(BundleRefusal::of(number)),
        }
    }

    /// Its edition.
    #[must_use]
    pub fn edition(&self) -> u32 {
        self.edition
    }

    /// How many rows a body of it may have.
    #[must_use]
    pub fn most_rows(&self) -> usize {
        rows_in(self.edition)
    }

    /// The words of each body.
    pub fn bodies(&self) -> impl Iterator<Item = &[i32]> {
        let mut rest = &self.words[..];
        self.lengths.iter().map(move |&length| {
            let (body, others) = rest.split_at(length as usize);
            rest = others;
            body
        })
    }

    /// The problem of each body, or its refusal: that of a body which is a problem
    /// and has too many rows for the edition is [`Refusal::Sizes`].
    pub fn problems(&self) -> impl Iterator<Item = Result<Problem, Refusal>> + '_ {
        self.bodies().map(|body| Problem::from_words_within(self.most_rows(), body))
    }

    /// What is printed for it: the texts of its bodies, one behind the other, byte
    /// for byte as they are proved.
    #[must_use]
    pub fn day(&self) -> String {
        day(&self.write())
    }
}

/// What is printed for the bytes of a day's file: [`Bundle::day`], or one line
/// where they are refused.
///
/// ```
/// assert_eq!(scatterflock::day(&[0; 8]), "refused 31\n");
/// ```
#[must_use]
pub fn day(file: &[u8]) -> String {
    let mut text = vec![0; MOST_DAY_TEXT];
    let length = raw::day(file, &mut text);
    text.truncate(length);
    String::from_utf8(text).expect("the text is letters and digits")
}
