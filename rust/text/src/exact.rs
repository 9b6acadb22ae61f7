//! Numbers that a text writes whole, as decimals or with a stroke: fractions.

use std::fmt;

/// The largest denominator of a number in a text.
pub const LARGEST_DENOMINATOR: i64 = 1_000;

/// A fraction in lowest terms, the denominator above 0.
#[derive(Debug, Clone, Copy, PartialEq, Eq)]
pub struct Exact {
    /// The numerator.
    pub numerator: i64,
    /// The denominator.
    pub denominator: i64,
}

impl Exact {
    /// Nothing.
    pub const ZERO: Exact = Exact { numerator: 0, denominator: 1 };

    /// `denominator` is above 0.
    #[must_use]
    pub fn new(numerator: i64, denominator: i64) -> Exact {
        let common = divisor(numerator.abs(), denominator);
        Exact { numerator: numerator / common, denominator: denominator / common }
    }

    /// The fraction, where its denominator is one that a text may have.
    pub(crate) fn fine(numerator: i64, denominator: i64) -> Option<Exact> {
        Some(Exact::new(numerator, denominator))
            .filter(|exact| exact.denominator <= LARGEST_DENOMINATOR)
    }

    pub(crate) fn plus(self, other: Exact) -> Option<Exact> {
        let numerator = self.numerator.checked_mul(other.denominator)?;
        let numerator = numerator.checked_add(other.numerator.checked_mul(self.denominator)?)?;
        Exact::fine(numerator, self.denominator * other.denominator)
    }

    /// So many times. What is too large for 64 bits is too large for any limit.
    pub(crate) fn times(self, whole: i64) -> Exact {
        Exact::new(self.numerator.saturating_mul(whole).max(-i64::MAX), self.denominator)
    }

    pub(crate) fn turned(self) -> Exact {
        Exact { numerator: -self.numerator, ..self }
    }

    /// Whether it is more than that in size.
    pub(crate) fn is_beyond(self, largest: i64) -> bool {
        self.numerator.abs() > largest.saturating_mul(self.denominator)
    }

    /// Whether it is that, or the opposite.
    pub(crate) fn is_one(self) -> bool {
        self.numerator.abs() == 1 && self.denominator == 1
    }
}

/// As a text writes it: `3`, `93.5`, or `1/3`.
impl fmt::Display for Exact {
    fn fmt(&self, to: &mut fmt::Formatter) -> fmt::Result {
        let Exact { numerator, denominator } = *self;
        let digits = (0..7).find(|&digits| 10_i64.pow(digits) % denominator == 0);
        match digits {
            Some(0) => write!(to, "{numerator}"),
            Some(digits) => {
                let ten = 10_i64.pow(digits);
                let size = i128::from(numerator.abs()) * i128::from(ten / denominator);
                let (whole, part) = (size / i128::from(ten), size % i128::from(ten));
                let sign = if numerator < 0 { "-" } else { "" };
                write!(to, "{sign}{whole}.{part:0wide$}", wide = digits as usize)
            }
            None => write!(to, "{numerator}/{denominator}"),
        }
    }
}

/// The greatest that divides both.
pub fn divisor(a: i64, b: i64) -> i64 {
    if b == 0 {
        a
    } else {
        divisor(b, a % b)
    }
}

/// The least that both divide.
pub fn multiple(a: i64, b: i64) -> i64 {
    a / divisor(a, b) * b
}
