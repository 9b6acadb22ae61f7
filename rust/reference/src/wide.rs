//! (p a - b c) / d for numbers of up to 127 bits, where d divides without rest
//! and what comes out is as short.

/// A whole number of 256 bits without a sign: its high half and its low one.
type Wide = (u128, u128);

/// Half the bits of a half.
const LOW: u128 = u64::MAX as u128;

/// By short products where these fit, and else by long ones.
pub fn quotient(p: i128, a: i128, b: i128, c: i128, d: i128) -> i128 {
    let short = p.checked_mul(a).zip(b.checked_mul(c)).and_then(|(pa, bc)| pa.checked_sub(bc));
    match short {
        Some(difference) => {
            assert_eq!(difference % d, 0, "the division is exact");
            difference / d
        }
        None => long_quotient(p, a, b, c, d),
    }
}

fn long_quotient(p: i128, a: i128, b: i128, c: i128, d: i128) -> i128 {
    let one = product(p.unsigned_abs(), a.unsigned_abs());
    let other = product(b.unsigned_abs(), c.unsigned_abs());
    let is_below = (p < 0) != (a < 0);
    let is_other_below = (b < 0) != (c < 0);
    let (size, is_below) = if is_below != is_other_below {
        (sum(one, other), is_below)
    } else if one >= other {
        (difference(one, other), is_below)
    } else {
        (difference(other, one), !is_below)
    };
    let quotient = divided(size, d.unsigned_abs()) as i128;
    if is_below != (d < 0) {
        -quotient
    } else {
        quotient
    }
}

/// By halves of 64 bits, whose products fit.
fn product(one: u128, other: u128) -> Wide {
    let (a, b) = (one >> 64, one & LOW);
    let (c, d) = (other >> 64, other & LOW);
    let low = b * d;
    let middle = a * d + (low >> 64);
    let rest = b * c + (middle & LOW);
    (a * c + (middle >> 64) + (rest >> 64), (rest << 64) | (low & LOW))
}

fn sum(one: Wide, other: Wide) -> Wide {
    let (low, carried) = one.1.overflowing_add(other.1);
    (one.0 + other.0 + u128::from(carried), low)
}

/// Of a number and one that is no larger.
fn difference(one: Wide, other: Wide) -> Wide {
    let (low, borrowed) = one.1.overflowing_sub(other.1);
    (one.0 - other.0 - u128::from(borrowed), low)
}

/// Bit by bit, as by hand.
fn divided(number: Wide, by: u128) -> u128 {
    let mut rest = 0;
    let mut quotient = 0;
    for half in [number.0, number.1] {
        for bit in (0..128).rev() {
            rest = (rest << 1) | ((half >> bit) & 1);
            quotient <<= 1;
            if rest >= by {
                rest -= by;
                quotient |= 1;
            }
        }
    }
    assert_eq!(rest, 0, "the division is exact");
    quotient
}

#[cfg(test)]
mod tests {
    use super::*;

    #[test]
    fn long_and_short_agree() {
        let numbers = [-7, -2, -1, 0, 1, 3, 5, 1_000_003, -1_000_000_007];
        for p in numbers {
            for a in numbers {
                for (b, c) in [(2, 3), (-4, 9), (0, 1), (-5, -6), (1_000_003, 999)] {
                    for d in [1, -1] {
                        assert_eq!(long_quotient(p, a, b, c, d), (p * a - b * c) / d);
                    }
                }
            }
        }
    }

    /// With d = p the first product is exact whatever b c is a multiple of.
    #[test]
    fn numbers_of_ninety_bits() {
        let (p, a) = ((1 << 92) - 3, (1 << 91) + 12_345);
        for (p, a) in [(p, a), (-p, a), (p, -a), (-p, -a)] {
            assert_eq!(quotient(p, a, 0, 1, p), a);
            assert_eq!(quotient(p, a, p, 7, p), a - 7);
            assert_eq!(quotient(p, a, -p, a, p), 2 * a);
            assert_eq!(quotient(p, 5, p, a, p), 5 - a);
            assert_eq!(quotient(0, 1, p, a, a), -p);
        }
    }
}
