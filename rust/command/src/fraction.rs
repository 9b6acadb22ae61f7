//! Fractions in lowest terms, with small amounts, and decimals to read.

use finder::Whole;
use std::fmt;
use text::answer::SMALL;
use text::Exact;

/// How many digits a decimal has behind the point at most.
const DIGITS: u32 = 6;

/// A fraction in lowest terms, the denominator above 0. Numbers of wide answers
/// have up to 110 bits, and those of texts few more than 20: there is room for
/// their products here.
#[derive(Debug, Clone, Copy, PartialEq, Eq)]
pub struct Fraction {
    pub numerator: i128,
    pub denominator: i128,
}

impl Fraction {
    /// `denominator` is above 0.
    pub fn new(numerator: i128, denominator: i128) -> Fraction {
        let common = divisor(numerator.unsigned_abs(), denominator.unsigned_abs()) as i128;
        Fraction { numerator: numerator / common, denominator: denominator / common }
    }

    /// The decimal, and whether it is the fraction exactly.
    pub fn decimal(self) -> (String, bool) {
        let (size, over) = (self.numerator.abs(), self.denominator);
        let scale = 10_i128.pow(DIGITS);
        let (mut scaled, mut rest) = (size / over, size % over);
        for _ in 0..DIGITS {
            scaled = 10 * scaled + 10 * rest / over;
            rest = 10 * rest % over;
        }
        let is_exact = rest == 0;
        scaled += i128::from(2 * rest >= over);
        let sign = if self.numerator < 0 && scaled > 0 { "-" } else { "" };
        let digits = format!("{:0width$}", scaled % scale, width = DIGITS as usize);
        let digits = digits.trim_end_matches('0');
        let point = if digits.is_empty() { "" } else { "." };
        (format!("{sign}{}{point}{digits}", scaled / scale), is_exact)
    }

    /// The decimal in words, where the fraction is not a whole number.
    pub fn read_as(self) -> Option<String> {
        let (decimal, is_exact) = self.decimal();
        (self.denominator != 1).then(|| match is_exact {
            true => decimal,
            false => format!("about {decimal}"),
        })
    }
}

impl Fraction {
    /// As a text writes it: `3`, `93.5`, or `1/3`.
    pub fn as_text(self) -> String {
        match self.decimal() {
            (decimal, true) => decimal,
            _ => self.to_string(),
        }
    }

    /// The sum.
    pub fn plus(self, other: Fraction) -> Fraction {
        let [a, b] = [self.numerator, self.denominator].map(Whole::from);
        let [c, d] = [other.numerator, other.denominator].map(Whole::from);
        lowest(&(&a * &d) + &(&c * &b), &b * &d)
    }

    /// So many times, with either sign.
    pub fn times(self, factor: i128) -> Fraction {
        let numerator = &Whole::from(self.numerator) * &Whole::from(factor);
        lowest(numerator, self.denominator.into())
    }

    /// An equal part of it; of so many, above 0.
    pub fn part(self, of: i128) -> Fraction {
        lowest(self.numerator.into(), &Whole::from(self.denominator) * &Whole::from(of))
    }
}

/// In lowest terms no number of an answer comes near 128 bits, though it may on
/// the way.
fn lowest(numerator: Whole, denominator: Whole) -> Fraction {
    let common = numerator.divisor(&denominator);
    let [numerator, denominator] = [numerator, denominator].map(|number| {
        let (quotient, _) = number.divided(&common);
        quotient.to_i128().expect("numbers of answers are smaller in lowest terms")
    });
    Fraction { numerator, denominator }
}

impl From<Exact> for Fraction {
    fn from(number: Exact) -> Fraction {
        Fraction::new(number.numerator.into(), number.denominator.into())
    }
}

impl fmt::Display for Fraction {
    fn fmt(&self, to: &mut fmt::Formatter) -> fmt::Result {
        match self.denominator {
            1 => write!(to, "{}", self.numerator),
            denominator => write!(to, "{}/{denominator}", self.numerator),
        }
    }
}

/// A fraction, and how many small amounts there are beside it.
#[derive(Debug, Clone, Copy, PartialEq, Eq)]
pub struct Pair {
    pub plain: Fraction,
    pub small: Fraction,
}

impl Pair {
    /// `over` is above 0.
    pub fn new([plain, small]: [i128; 2], over: i128) -> Pair {
        Pair { plain: Fraction::new(plain, over), small: Fraction::new(small, over) }
    }

    /// Below 0, 0 or above it: the plain part decides, and where it is 0 the
    /// small one.
    pub fn sign(self) -> i128 {
        match (self.plain.numerator, self.small.numerator) {
            (0, small) => small.signum(),
            (plain, _) => plain.signum(),
        }
    }

    /// The same on the other side of 0.
    pub fn turned(self) -> Pair {
        let Pair { plain, small } = self;
        Pair {
            plain: Fraction { numerator: -plain.numerator, ..plain },
            small: Fraction { numerator: -small.numerator, ..small },
        }
    }

    /// What can be read beside it: the decimal, and on which side of the
    /// plain part it lies.
    pub fn read_as(self) -> Option<String> {
        let side = match self.small.numerator.signum() {
            0 => return self.plain.read_as(),
            1 => "above",
            _ => "below",
        };
        let read = self.plain.read_as().map_or(String::new(), |read| format!(", {read}"));
        Some(format!("just {side} {}{read}", self.plain))
    }
}

/// As an answer has it: `7/2`, or `7/2 - 3/4 small`.
impl fmt::Display for Pair {
    fn fmt(&self, to: &mut fmt::Formatter) -> fmt::Result {
        let Fraction { numerator, denominator } = self.small;
        let sign = if numerator < 0 { '-' } else { '+' };
        let times = Fraction { numerator: numerator.abs(), denominator };
        match (numerator.abs(), denominator) {
            (0, _) => write!(to, "{}", self.plain),
            (1, 1) => write!(to, "{} {sign} {SMALL}", self.plain),
            _ => write!(to, "{} {sign} {times} {SMALL}", self.plain),
        }
    }
}

fn divisor(a: u128, b: u128) -> u128 {
    if b == 0 {
        a.max(1)
    } else {
        divisor(b, a % b)
    }
}

#[cfg(test)]
mod tests {
    use super::*;

    #[test]
    fn lowest_terms_and_decimals() {
        for (numerator, denominator, text, read) in [
            (6, 3, "2", None),
            (0, 7, "0", None),
            (-5, 2, "-5/2", Some("-2.5")),
            (392, 3, "392/3", Some("about 130.666667")),
            (-1, 3, "-1/3", Some("about -0.333333")),
            (1, 1_000_000, "1/1000000", Some("0.000001")),
            (-1, 2_147_483_647, "-1/2147483647", Some("about 0")),
            (2_999_999_999, 3_000_000_000, "2999999999/3000000000", Some("about 1")),
            (
                -(1 << 100) - 1,
                1 << 85,
                "-1267650600228229401496703205377/38685626227668133590597632",
                Some("about -32768"),
            ),
        ] {
            let fraction = Fraction::new(numerator, denominator);
            assert_eq!(fraction.to_string(), text);
            assert_eq!(fraction.read_as().as_deref(), read, "{text}");
        }
    }

    #[test]
    fn small_amounts() {
        for (parts, over, text, read, sign) in [
            ([6, 0], 3, "2", None, 1),
            ([0, 0], 1, "0", None, 0),
            ([0, 1], 1, "0 + small", Some("just above 0"), 1),
            ([0, -4], 2, "0 - 2 small", Some("just below 0"), -1),
            ([-434, -2], 2, "-217 - small", Some("just below -217"), -1),
            ([7, -3], 2, "7/2 - 3/2 small", Some("just below 7/2, 3.5"), 1),
            ([1, 1], 3, "1/3 + 1/3 small", Some("just above 1/3, about 0.333333"), 1),
        ] {
            let pair = Pair::new(parts, over);
            assert_eq!(pair.to_string(), text);
            assert_eq!(pair.read_as().as_deref(), read, "{text}");
            assert_eq!(pair.sign(), sign, "{text}");
        }
    }
}
