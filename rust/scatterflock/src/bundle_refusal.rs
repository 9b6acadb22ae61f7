//! Why a day's file is refused, by number and in words.

use std::error::Error;
use std::fmt;

/// Why a day's file is not read, or not written.
///
/// ```
/// use scatterflock::{Bundle, BundleRefusal};
///
/// let refusal = Bundle::read(&[0; 8]).unwrap_err();
/// assert_eq!(refusal, BundleRefusal::Edition);
/// assert_eq!(refusal.number(), 31);
/// assert_eq!(refusal.to_string(), "there is no such edition: a day's file has edition 1 or 2");
/// ```
#[derive(Debug, Clone, Copy, PartialEq, Eq, Hash)]
#[non_exhaustive]
pub enum BundleRefusal {
    /// 30: no whole number of words, fewer than two, or more than 16,384.
    Size = 30,
    /// 31: there is no such edition.
    Edition = 31,
    /// 32: the count of bodies is out of its range.
    Bodies = 32,
    /// 33: the file ends before its pairs do.
    Table = 33,
    /// 34: a length is negative, or a body does not start behind the one before.
    Pair = 34,
    /// 35: the file does not end where its last body does.
    Total = 35,
    /// 36: the output has too little room.
    Short = 36,
}

impl BundleRefusal {
    /// Every refusal, by number.
    pub const ALL: &[BundleRefusal] = &[
        BundleRefusal::Size,
        BundleRefusal::Edition,
        BundleRefusal::Bodies,
        BundleRefusal::Table,
        BundleRefusal::Pair,
        BundleRefusal::Total,
        BundleRefusal::Short,
    ];

    /// The number in docs/RULES.md, 30 to 36.
    #[must_use]
    pub const fn number(self) -> u32 {
        self as u32
    }

    /// The refusal of a number that the archive returned.
    pub(crate) fn of(number: u32) -> BundleRefusal {
        BundleRefusal::try_from(number).expect("reader and writer return 0 or a refusal")
    }
}

/// The refusal of this number. A number that is none comes back.
impl TryFrom<u32> for BundleRefusal {
    type Error = u32;

    fn try_from(number: u32) -> Result<BundleRefusal, u32> {
        BundleRefusal::ALL.iter().copied().find(|refusal| refusal.number() == number).ok_or(number)
    }
}

impl fmt::Display for BundleRefusal {
    fn fmt(&self, to: &mut fmt::Formatter) -> fmt::Result {
        to.write_str(match self {
            BundleRefusal::Size => "a day's file has 2 to 16,384 words of four bytes each",
            BundleRefusal::Edition => "there is no such edition: a day's file has edition 1 or 2",
            BundleRefusal::Bodies => {
                "there must be 0 to 64 bodies in edition 1, 0 to 48 in edition 2"
            }
            BundleRefusal::Table => "the file ends before it has told where each body is",
            BundleRefusal::Pair => {
                "a body has a negative length, or does not start where the one before it ends"
            }
            BundleRefusal::Total => "the bodies do not have as many words as there are",
            BundleRefusal::Short => "there is no room for all of it",
        })
    }
}

impl Error for BundleRefusal {}
