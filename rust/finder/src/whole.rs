//! Whole numbers of any size.

use std::cmp::Ordering;
use std::fmt;
use std::ops::{Add, Mul, Neg, Sub};

/// The bits of a limb.
const BITS: u32 = u32::BITS;

/// A whole number of any size.
///
/// ```
/// use finder::Whole;
///
/// let large = &Whole::from(i128::MAX) * &Whole::from(-10);
/// assert_eq!(large.to_string(), "-1701411834604692317316873037158841057270");
/// assert_eq!(large.to_i128(), None);
/// ```
#[derive(Debug, Clone, PartialEq, Eq, Hash)]
pub struct Whole {
    is_below: bool,
    /// Its size by limbs, the lowest first. The last is not 0, and 0 has none.
    limbs: Vec<u32>,
}

impl Whole {
    /// 0.
    pub const ZERO: Whole = Whole { is_below: false, limbs: Vec::new() };

    fn new(is_below: bool, mut limbs: Vec<u32>) -> Whole {
        while limbs.last() == Some(&0) {
            limbs.pop();
        }
        Whole { is_below: is_below && !limbs.is_empty(), limbs }
    }

    /// -1, 0 or 1.
    #[must_use]
    pub fn sign(&self) -> i32 {
        match (self.limbs.is_empty(), self.is_below) {
            (true, _) => 0,
            (_, true) => -1,
            (_, false) => 1,
        }
    }

    /// The same number without its sign.
    #[must_use]
    pub fn size(&self) -> Whole {
        Whole { is_below: false, limbs: self.limbs.clone() }
    }

    /// The quotient toward 0, and the rest, which has the sign of this number.
    ///
    /// # Panics
    ///
    /// If `by` is 0.
    #[must_use]
    pub fn divided(&self, by: &Whole) -> (Whole, Whole) {
        assert!(by.sign() != 0, "no number is divided by 0");
        let (quotient, rest) = divided(&self.limbs, &by.limbs);
        (Whole::new(self.is_below != by.is_below, quotient), Whole::new(self.is_below, rest))
    }

    /// The greatest number that divides both; of 0 and 0 it is 0.
    #[must_use]
    pub fn divisor(&self, other: &Whole) -> Whole {
        let (mut larger, mut smaller) = (self.size(), other.size());
        while smaller.sign() != 0 {
            let (_, rest) = larger.divided(&smaller);
            (larger, smaller) = (smaller, rest);
        }
        larger
    }

    /// The number, where it has so few bits.
    #[must_use]
    pub fn to_i128(&self) -> Option<i128> {
        if self.limbs.len() > 4 {
            return None;
        }
        let above = |size: u128, limb: &u32| (size << BITS) | u128::from(*limb);
        let size = self.limbs.iter().rev().fold(0, above);
        if self.is_below {
            0_i128.checked_sub_unsigned(size)
        } else {
            i128::try_from(size).ok()
        }
    }
}

impl From<i128> for Whole {
    fn from(number: i128) -> Whole {
        let size = number.unsigned_abs();
        Whole::new(number < 0, (0..4).map(|limb| (size >> (limb * BITS)) as u32).collect())
    }
}

impl From<i64> for Whole {
    fn from(number: i64) -> Whole {
        Whole::from(i128::from(number))
    }
}

impl From<i32> for Whole {
    fn from(number: i32) -> Whole {
        Whole::new(number < 0, vec![number.unsigned_abs()])
    }
}

impl Add for &Whole {
    type Output = Whole;

    fn add(self, other: &Whole) -> Whole {
        if self.is_below == other.is_below {
            return Whole::new(self.is_below, plus(&self.limbs, &other.limbs));
        }
        match compared(&self.limbs, &other.limbs) {
            Ordering::Less => Whole::new(other.is_below, less(&other.limbs, &self.limbs)),
            _ => Whole::new(self.is_below, less(&self.limbs, &other.limbs)),
        }
    }
}

impl Neg for Whole {
    type Output = Whole;

    fn neg(self) -> Whole {
        Whole::new(!self.is_below, self.limbs)
    }
}

impl Sub for &Whole {
    type Output = Whole;

    fn sub(self, other: &Whole) -> Whole {
        self + &-other.clone()
    }
}

impl Mul for &Whole {
    type Output = Whole;

    fn mul(self, other: &Whole) -> Whole {
        Whole::new(self.is_below != other.is_below, times(&self.limbs, &other.limbs))
    }
}

impl Ord for Whole {
    fn cmp(&self, other: &Whole) -> Ordering {
        match (self.is_below, other.is_below) {
            (false, false) => compared(&self.limbs, &other.limbs),
            (true, true) => compared(&other.limbs, &self.limbs),
            (is_below, is_other_below) => is_other_below.cmp(&is_below),
        }
    }
}

impl PartialOrd for Whole {
    fn partial_cmp(&self, other: &Whole) -> Option<Ordering> {
        Some(self.cmp(other))
    }
}

/// In decimal digits.
impl fmt::Display for Whole {
    fn fmt(&self, to: &mut fmt::Formatter) -> fmt::Result {
        let mut limbs = self.limbs.clone();
        let mut nines = Vec::new();
        while !limbs.is_empty() {
            let (quotient, rest) = divided(&limbs, &[1_000_000_000]);
            nines.push(rest[0]);
            limbs = Whole::new(false, quotient).limbs;
        }
        let highest = nines.pop().unwrap_or(0);
        let rest: String = nines.iter().rev().map(|nine| format!("{nine:09}")).collect();
        to.pad_integral(!self.is_below, "", &format!("{highest}{rest}"))
    }
}

/// How two sizes compare, neither with a highest limb of 0.
fn compared(one: &[u32], other: &[u32]) -> Ordering {
    one.len().cmp(&other.len()).then_with(|| one.iter().rev().cmp(other.iter().rev()))
}

fn plus(one: &[u32], other: &[u32]) -> Vec<u32> {
    let count = one.len().max(other.len()) + 1;
    let mut sum = Vec::with_capacity(count);
    let mut carry = 0;
    for place in 0..count {
        let limb = |limbs: &[u32]| u64::from(limbs.get(place).copied().unwrap_or(0));
        carry += limb(one) + limb(other);
        sum.push(carry as u32);
        carry >>= BITS;
    }
    sum
}

/// A size less one that is not larger.
fn less(one: &[u32], other: &[u32]) -> Vec<u32> {
    let mut rest = one.to_vec();
    take(&mut rest, other, 1);
    rest
}

fn times(one: &[u32], other: &[u32]) -> Vec<u32> {
    let mut product = vec![0; one.len() + other.len()];
    for (place, &limb) in one.iter().enumerate() {
        let mut carry = 0;
        for (to, &by) in product[place..].iter_mut().zip(other) {
            carry += u64::from(*to) + u64::from(limb) * u64::from(by);
            *to = carry as u32;
            carry >>= BITS;
        }
        product[place + other.len()] = carry as u32;
    }
    product
}

/// Takes a multiple from a size, limb by limb; what could not be taken from the
/// last limb is handed back, as 1 where the size was too small.
fn take(from: &mut [u32], limbs: &[u32], times: u64) -> u64 {
    let mut owed = 0;
    for (place, limb) in from.iter_mut().enumerate() {
        owed += limbs.get(place).map_or(0, |&limb| times * u64::from(limb));
        let (rest, is_short) = limb.overflowing_sub(owed as u32);
        *limb = rest;
        owed = (owed >> BITS) + u64::from(is_short);
    }
    owed
}

/// Adds a size to a part of another, whose last limb turns over.
fn put_back(to: &mut [u32], limbs: &[u32]) -> u64 {
    let mut carry = 0;
    for (place, limb) in to.iter_mut().enumerate() {
        carry += u64::from(*limb) + limbs.get(place).map_or(0, |&limb| u64::from(limb));
        *limb = carry as u32;
        carry >>= BITS;
    }
    carry
}

/// Quotient and rest, as by hand: each limb of the quotient is guessed by the
/// highest limbs. The divisor is moved up until its highest bit is set, so that
/// a guess is never too small and at most 2 too large.
fn divided(number: &[u32], by: &[u32]) -> (Vec<u32>, Vec<u32>) {
    if number.len() < by.len() {
        return (Vec::new(), number.to_vec());
    }
    let shift = by[by.len() - 1].leading_zeros();
    let by = moved_up(by, shift);
    let by = &by[..by.len() - 1];
    let highest = u64::from(by[by.len() - 1]);
    let mut rest = moved_up(number, shift);
    let count = rest.len() - by.len();
    let mut quotient = vec![0; count];
    for place in (0..count).rev() {
        let part = &mut rest[place..=place + by.len()];
        let two = u64::from(part[by.len()]) << BITS | u64::from(part[by.len() - 1]);
        let mut guess = (two / highest).min(u64::from(u32::MAX));
        let mut owed = take(part, by, guess);
        while owed > 0 {
            guess -= 1;
            owed -= put_back(part, by);
        }
        quotient[place] = guess as u32;
    }
    rest.truncate(by.len());
    (quotient, moved_down(&rest, shift))
}

/// So many bits up, below 32, with one limb more.
fn moved_up(limbs: &[u32], shift: u32) -> Vec<u32> {
    let mut carry = 0;
    let moved = limbs.iter().map(|&limb| {
        let all = u64::from(limb) << shift | carry;
        carry = all >> BITS;
        all as u32
    });
    let mut moved: Vec<u32> = moved.collect();
    moved.push(carry as u32);
    moved
}

/// So many bits down, below 32; what falls out is 0.
fn moved_down(limbs: &[u32], shift: u32) -> Vec<u32> {
    let above = limbs.iter().skip(1).copied().chain([0]);
    let moved = limbs.iter().zip(above);
    moved
        .map(|(&limb, above)| ((u64::from(above) << BITS | u64::from(limb)) >> shift) as u32)
        .collect()
}

#[cfg(test)]
mod tests {
    use super::*;
    use problems::random::{seed, Random};

    /// A number of up to so many limbs, with many at either end.
    fn number(random: &mut Random, most: usize) -> Whole {
        let limbs = (0..random.below(most + 1)).map(|_| match random.below(4) {
            0 => u32::MAX - random.below(2) as u32,
            1 => random.below(2) as u32,
            _ => random.bits() as u32,
        });
        let limbs = limbs.collect();
        Whole::new(random.percent(50), limbs)
    }

    #[test]
    fn as_numbers_of_128_bits() {
        let seed = seed();
        println!("SEED={seed}");
        for problem in 0..50_000 {
            let mut random = Random::of_problem(seed, problem);
            let [one, other] = [0; 2].map(|_| number(&mut random, 2).to_i128().unwrap() >> 2);
            let [a, b] = [one, other].map(Whole::from);
            assert_eq!((&a + &b).to_i128(), Some(one + other), "SEED={seed}");
            assert_eq!((&a - &b).to_i128(), Some(one - other), "SEED={seed}");
            assert_eq!((&a * &b).to_i128(), Some(one * other), "SEED={seed}");
            assert_eq!(a.cmp(&b), one.cmp(&other), "SEED={seed}");
            assert_eq!(a.to_string(), one.to_string(), "SEED={seed}");
            assert_eq!(a.sign() as i128, one.signum(), "SEED={seed}");
            if other != 0 {
                let (quotient, rest) = a.divided(&b);
                let found = (quotient.to_i128(), rest.to_i128());
                assert_eq!(found, (Some(one / other), Some(one % other)), "SEED={seed}");
            }
        }
    }

    #[test]
    fn a_quotient_multiplied_back() {
        let seed = seed();
        println!("SEED={seed}");
        for problem in 0..50_000 {
            let mut random = Random::of_problem(seed, problem);
            let [a, b] = [9, 6].map(|most| number(&mut random, most));
            let divisor = a.divisor(&b);
            if b.sign() == 0 {
                assert_eq!(divisor, a.size(), "SEED={seed}");
                continue;
            }
            let (quotient, rest) = a.divided(&b);
            assert_eq!(&(&quotient * &b) + &rest, a, "SEED={seed}");
            assert!(rest.size() < b.size() && rest.sign() * a.sign() >= 0, "SEED={seed}");
            for number in [&a, &b] {
                assert_eq!(number.divided(&divisor).1, Whole::ZERO, "SEED={seed}");
            }
            let [a, b] = [&a, &b].map(|number| number.divided(&divisor).0);
            assert_eq!(a.divisor(&b), Whole::from(1), "SEED={seed}");
        }
    }

    #[test]
    fn both_ends_of_128_bits() {
        for number in [i128::MIN, i128::MIN + 1, -1, 0, 1, i128::MAX] {
            assert_eq!(Whole::from(number).to_i128(), Some(number));
            assert_eq!(Whole::from(number).to_string(), number.to_string());
        }
        let one = Whole::from(1);
        assert_eq!((&Whole::from(i128::MAX) + &one).to_i128(), None);
        assert_eq!((&Whole::from(i128::MIN) - &one).to_i128(), None);
        assert_eq!((&one + &Whole::from(-1)), Whole::ZERO);
    }
}
