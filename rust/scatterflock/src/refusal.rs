//! Why words are refused, by number and in words.

use std::error::Error;
use std::fmt;

/// Why a limit problem, or an answer to it, is refused.
///
/// ```
/// use scatterflock::{solve, Refusal};
///
/// let refusal = solve(&[9, 0]).unwrap_err();
/// assert_eq!(refusal, Refusal::Sizes);
/// assert_eq!(refusal.number(), 2);
/// assert_eq!(
///     refusal.to_string(),
///     "there must be 1 to 8 variables and 0 to 24 rows, or fewer where fewer are allowed"
/// );
/// ```
#[derive(Debug, Clone, Copy, PartialEq, Eq, Hash)]
#[non_exhaustive]
pub enum Refusal {
    /// 1: there are not even n and m.
    FewWords = 1,
    /// 2: n or m is out of its range, or there are more rows than are allowed.
    Sizes = 2,
    /// 3: n and m ask for another number of words.
    Length = 3,
    /// 4: a coefficient is out of its range.
    Coefficient = 4,
    /// 5: a kind is out of its range, or marks a missing limit as strict.
    Kind = 5,
    /// 6: a limit is out of its range, or a missing one has a number.
    Limit = 6,
    /// 10: every coefficient of some row is 0. It is asked after 6 and
    /// before 7.
    BlankRow = 10,
    /// 7: the output, or the answer to check, has too few words.
    Short = 7,
}

impl Refusal {
    /// Every refusal, in the order in which they are asked.
    pub const ALL: &[Refusal] = &[
        Refusal::FewWords,
        Refusal::Sizes,
        Refusal::Length,
        Refusal::Coefficient,
        Refusal::Kind,
        Refusal::Limit,
        Refusal::BlankRow,
        Refusal::Short,
    ];

    /// The number in docs/RULES.md: 1 to 7, or 10.
    #[must_use]
    pub const fn number(self) -> u32 {
        self as u32
    }
}

/// The refusal of this number. A number that is none comes back.
impl TryFrom<u32> for Refusal {
    type Error = u32;

    fn try_from(number: u32) -> Result<Refusal, u32> {
        Refusal::ALL.iter().copied().find(|refusal| refusal.number() == number).ok_or(number)
    }
}

impl fmt::Display for Refusal {
    fn fmt(&self, to: &mut fmt::Formatter) -> fmt::Result {
        to.write_str(match self {
            Refusal::FewWords => "the words end before both sizes are told",
            Refusal::Sizes => {
                "there must be 1 to 8 variables and 0 to 24 rows, or fewer where fewer are allowed"
            }
            Refusal::Length => "the sizes ask for another number of words",
            Refusal::Coefficient => "a coefficient is not from -1,000 to 1,000",
            Refusal::Kind => {
                "a kind of limit is not from 0 to 15, or marks a missing limit as strict"
            }
            Refusal::Limit => {
                "a limit is not from -30,000 to 30,000, or a missing one is not written as 0"
            }
            Refusal::BlankRow => "all coefficients of a row are 0",
            Refusal::Short => "there is no room for a whole answer",
        })
    }
}

impl Error for Refusal {}

/// Why time rows are refused.
///
/// ```
/// use scatterflock::{times, TimesRefusal};
///
/// let refusal = times(&[1, 1, 0, 1, 0, 0]).unwrap_err();
/// assert_eq!(refusal, TimesRefusal::Vertex);
/// assert_eq!(refusal.number(), 14);
/// assert_eq!(refusal.to_string(), "a row names a vertex that there is not");
/// ```
#[derive(Debug, Clone, Copy, PartialEq, Eq, Hash)]
#[non_exhaustive]
pub enum TimesRefusal {
    /// 11: there are not even n and m.
    FewWords = 11,
    /// 12: n or m is out of its range.
    Sizes = 12,
    /// 13: m asks for another number of words.
    Length = 13,
    /// 14: a vertex is not one of the n.
    Vertex = 14,
    /// 15: a strict word is neither 0 nor 1.
    Strict = 15,
    /// 16: a row's number is out of its range.
    Bound = 16,
    /// 17: the output has too few words.
    Short = 17,
}

impl TimesRefusal {
    /// Every refusal, by number.
    pub const ALL: &[TimesRefusal] = &[
        TimesRefusal::FewWords,
        TimesRefusal::Sizes,
        TimesRefusal::Length,
        TimesRefusal::Vertex,
        TimesRefusal::Strict,
        TimesRefusal::Bound,
        TimesRefusal::Short,
    ];

    /// The number in docs/RULES.md, 11 to 17.
    #[must_use]
    pub const fn number(self) -> u32 {
        self as u32
    }
}

/// The refusal of this number. A number that is none comes back.
impl TryFrom<u32> for TimesRefusal {
    type Error = u32;

    fn try_from(number: u32) -> Result<TimesRefusal, u32> {
        TimesRefusal::ALL.iter().copied().find(|refusal| refusal.number() == number).ok_or(number)
    }
}

impl fmt::Display for TimesRefusal {
    fn fmt(&self, to: &mut fmt::Formatter) -> fmt::Result {
        to.write_str(match self {
            TimesRefusal::FewWords => "the words end before both sizes are told",
            TimesRefusal::Sizes => "there must be 1 to 64 vertices and 0 to 256 rows",
            TimesRefusal::Length => "the sizes ask for another number of words",
            TimesRefusal::Vertex => "a row names a vertex that there is not",
            TimesRefusal::Strict => "a row is neither marked strict by 1 nor not strict by 0",
            TimesRefusal::Bound => "a row's number is not from -30,000 to 30,000",
            TimesRefusal::Short => "there is no room for a whole answer",
        })
    }
}

impl Error for TimesRefusal {}

/// Why a limit is not switched.
///
/// ```
/// use scatterflock::{Session, Side, SwitchRefusal};
///
/// // x is at least 5
/// let mut session = Session::open(&[1, 0, 1, 5, 0]).unwrap();
/// let refusal = session.switch_on(0, Side::Upper).unwrap_err();
/// assert_eq!(refusal, SwitchRefusal::NoLimit);
/// assert_eq!(refusal.number(), 42);
/// assert_eq!(refusal.to_string(), "the variable has no such limit");
/// ```
#[derive(Debug, Clone, Copy, PartialEq, Eq, Hash)]
#[non_exhaustive]
pub enum SwitchRefusal {
    /// 41: the number is that of no variable.
    NoVariable = 41,
    /// 42: the variable has no such limit.
    NoLimit = 42,
    /// 43: the limit is to be on, and is.
    AlreadyOn = 43,
    /// 44: the limit is to be off, and is.
    AlreadyOff = 44,
}

impl SwitchRefusal {
    /// Every refusal, in the order in which they are asked.
    pub const ALL: &[SwitchRefusal] = &[
        SwitchRefusal::NoVariable,
        SwitchRefusal::NoLimit,
        SwitchRefusal::AlreadyOn,
        SwitchRefusal::AlreadyOff,
    ];

    /// The number in docs/RULES.md, 41 to 44.
    #[must_use]
    pub const fn number(self) -> u32 {
        self as u32
    }
}

/// The refusal of this number. A number that is none comes back.
impl TryFrom<u32> for SwitchRefusal {
    type Error = u32;

    fn try_from(number: u32) -> Result<SwitchRefusal, u32> {
        SwitchRefusal::ALL.iter().copied().find(|refusal| refusal.number() == number).ok_or(number)
    }
}

impl fmt::Display for SwitchRefusal {
    fn fmt(&self, to: &mut fmt::Formatter) -> fmt::Result {
        to.write_str(match self {
            SwitchRefusal::NoVariable => "there is no such variable",
            SwitchRefusal::NoLimit => "the variable has no such limit",
            SwitchRefusal::AlreadyOn => "the limit is on already",
            SwitchRefusal::AlreadyOff => "the limit is off already",
        })
    }
}

impl Error for SwitchRefusal {}
