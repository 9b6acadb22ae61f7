//! Values of the run: a plain part, and how often a small amount is added to it.
//!
//! The amount is above 0 and as small as one likes, so the plain parts are
//! compared first.

use crate::fraction::Fraction;
use std::ops::{Add, Neg};

#[derive(Debug, Clone, Copy, PartialEq, Eq, PartialOrd, Ord)]
pub struct Pair {
    pub plain: Fraction,
    pub small: Fraction,
}

impl Pair {
    pub fn whole(plain: i128, small: i128) -> Pair {
        Pair { plain: Fraction::whole(plain), small: Fraction::whole(small) }
    }

    /// Both parts times a multiple of their bottoms.
    pub fn times_multiple(self, multiple: i128) -> (i128, i128) {
        (self.plain.times_multiple(multiple), self.small.times_multiple(multiple))
    }

    /// Both parts times a fraction.
    pub fn times(self, factor: Fraction) -> Pair {
        Pair { plain: factor * self.plain, small: factor * self.small }
    }
}

impl Add for Pair {
    type Output = Pair;

    fn add(self, other: Pair) -> Pair {
        Pair { plain: self.plain + other.plain, small: self.small + other.small }
    }
}

impl Neg for Pair {
    type Output = Pair;

    fn neg(self) -> Pair {
        Pair { plain: -self.plain, small: -self.small }
    }
}

#[cfg(test)]
mod tests {
    use super::*;

    #[test]
    fn the_plain_part_is_compared_first() {
        let sorted = [(-1, 9), (0, -2), (0, 0), (0, 1), (1, -9), (1, 0)];
        for (at, &(plain, small)) in sorted.iter().enumerate() {
            for (other, &(p, s)) in sorted.iter().enumerate() {
                let order = Pair::whole(plain, small).cmp(&Pair::whole(p, s));
                assert_eq!(order, at.cmp(&other), "{plain} {small} against {p} {s}");
            }
        }
    }

    #[test]
    fn both_parts_are_counted() {
        let half = Fraction::new(1, 2);
        let sum = Pair::whole(3, -1).times(half) + -Pair::whole(1, 2);
        assert_eq!(sum.times_multiple(2), (1, -5));
    }
}
