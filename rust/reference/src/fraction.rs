//! Exact fractions, always in lowest terms and with a bottom above 0.

use std::cmp::Ordering;
use std::ops::{Add, Div, Mul, Neg};

/// `top / bottom`; two equal fractions have the same top and bottom.
#[derive(Debug, Clone, Copy, PartialEq, Eq)]
pub struct Fraction {
    top: i128,
    bottom: i128,
}

impl Fraction {
    /// The fraction `top / bottom`. The bottom is not 0.
    pub fn new(top: i128, bottom: i128) -> Fraction {
        let divisor = common_divisor(top, bottom) * bottom.signum();
        Fraction { top: top / divisor, bottom: bottom / divisor }
    }

    pub fn whole(number: i128) -> Fraction {
        Fraction { top: number, bottom: 1 }
    }

    pub fn bottom(self) -> i128 {
        self.bottom
    }

    /// -1, 0 or 1.
    pub fn sign(self) -> i128 {
        self.top.signum()
    }

    /// This fraction times a multiple of its bottom, a whole number.
    pub fn times_multiple(self, multiple: i128) -> i128 {
        self.top * (multiple / self.bottom)
    }
}

impl Ord for Fraction {
    fn cmp(&self, other: &Fraction) -> Ordering {
        (self.top * other.bottom).cmp(&(other.top * self.bottom))
    }
}

impl PartialOrd for Fraction {
    fn partial_cmp(&self, other: &Fraction) -> Option<Ordering> {
        Some(self.cmp(other))
    }
}

impl Add for Fraction {
    type Output = Fraction;

    fn add(self, other: Fraction) -> Fraction {
        Fraction::new(self.top * other.bottom + other.top * self.bottom, self.bottom * other.bottom)
    }
}

impl Neg for Fraction {
    type Output = Fraction;

    fn neg(self) -> Fraction {
        Fraction { top: -self.top, bottom: self.bottom }
    }
}

impl Mul for Fraction {
    type Output = Fraction;

    fn mul(self, other: Fraction) -> Fraction {
        Fraction::new(self.top * other.top, self.bottom * other.bottom)
    }
}

impl Div for Fraction {
    type Output = Fraction;

    fn div(self, other: Fraction) -> Fraction {
        Fraction::new(self.top * other.bottom, self.bottom * other.top)
    }
}

/// The greatest number that divides both; of 0 and 0 it is 0.
fn common_divisor(one: i128, other: i128) -> i128 {
    let (mut larger, mut smaller) = (one.unsigned_abs(), other.unsigned_abs());
    while smaller != 0 {
        (larger, smaller) = (smaller, remainder(larger, smaller));
    }
    larger as i128
}

/// Most numbers are short, and short division is much the quicker one.
fn remainder(number: u128, by: u128) -> u128 {
    match (u64::try_from(number), u64::try_from(by)) {
        (Ok(number), Ok(by)) => u128::from(number % by),
        _ => number % by,
    }
}

/// The least number above 0 that both divide; both are above 0.
pub fn common_multiple(one: i128, other: i128) -> i128 {
    one / common_divisor(one, other) * other
}

#[cfg(test)]
mod tests {
    use super::*;

    #[test]
    fn lowest_terms_with_a_bottom_above_zero() {
        assert_eq!(Fraction::new(6, -4), Fraction::new(-3, 2));
        assert_eq!(Fraction::new(-3, 2).bottom(), 2);
        assert_eq!(Fraction::new(0, -5), Fraction::whole(0));
    }

    #[test]
    fn the_four_operations() {
        let half = Fraction::new(1, 2);
        let third = Fraction::new(-1, 3);
        assert_eq!(half + third, Fraction::new(1, 6));
        assert_eq!(half * third, Fraction::new(-1, 6));
        assert_eq!(half / third, Fraction::new(-3, 2));
        assert_eq!(-half, Fraction::new(-1, 2));
    }

    #[test]
    fn comparing() {
        let number = Fraction::new(-7, 2);
        assert!(number < Fraction::whole(-3) && number > Fraction::whole(-4));
        assert!(number < Fraction::new(-10, 3) && number > Fraction::new(-11, 3));
        assert_eq!(Fraction::new(10, 2).cmp(&Fraction::whole(5)), Ordering::Equal);
    }

    #[test]
    fn multiples() {
        assert_eq!(common_multiple(4, 6), 12);
        assert_eq!(common_multiple(1, 7), 7);
        assert_eq!(Fraction::new(-5, 4).times_multiple(12), -15);
    }
}
