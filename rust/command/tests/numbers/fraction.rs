//! Exact fractions.

use super::json::Json;

/// A fraction: numerator, and a denominator above 0.
pub type Fraction = (i128, i128);

pub fn fraction(json: &Json) -> Fraction {
    let [above, below] = ["numerator", "denominator"].map(|part| json.at(part).number().into());
    assert!(below > 0, "{json:?}");
    (above, below)
}

/// The fraction that a decimal is.
pub fn decimal(text: &str) -> Fraction {
    let (whole, part) = text.split_once('.').unwrap_or((text, ""));
    let digits: i128 = format!("{whole}{part}").parse().unwrap();
    (digits, 10_i128.pow(part.len() as u32))
}

pub fn is_equal(one: Fraction, other: Fraction) -> bool {
    lowest(one) == lowest(other)
}

fn divisor(a: i128, b: i128) -> i128 {
    if b == 0 {
        a.abs()
    } else {
        divisor(b, a % b)
    }
}

pub fn lowest((above, below): Fraction) -> Fraction {
    let common = divisor(above, below);
    (above / common, below / common)
}

pub fn plus(one: Fraction, other: Fraction) -> Fraction {
    let common = divisor(one.1, other.1);
    let [by, others_by] = [other.1 / common, one.1 / common];
    lowest((checked(one.0, by) + checked(other.0, others_by), checked(one.1, by)))
}

fn checked(one: i128, other: i128) -> i128 {
    one.checked_mul(other).expect("fractions of answers are not as large")
}

pub fn product(one: Fraction, other: Fraction) -> Fraction {
    let (one, other) = (lowest((one.0, other.1)), lowest((other.0, one.1)));
    (checked(one.0, other.0), checked(one.1, other.1))
}

pub fn times_of(number: i128, of: Fraction) -> Fraction {
    lowest((checked(number, of.0), of.1))
}
