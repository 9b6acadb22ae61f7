//! What a variable's value is, and what limits are compared with.

use crate::base::sum_by;

/// The operations on values: 0, addition, a whole number times a value, and
/// the order.
pub struct Values<X> {
    pub nil: X,
    pub plus: fn(X, X) -> X,
    pub scale: fn(i128, X) -> X,
    pub less: fn(X, X) -> bool,
}

/// Whole numbers.
pub const WHOLE: Values<i128> =
    Values { nil: 0, plus: |a, b| a + b, scale: |a, b| a * b, less: |a, b| a < b };

/// The first order decides; where it says neither less nor more, the second.
pub fn lexicographic(less: bool, more: bool, rest: bool) -> bool {
    match (less, more) {
        (true, _) => true,
        (false, true) => false,
        (false, false) => rest,
    }
}

/// Whole numbers beside whole numbers: a plain part and a small part.
pub const PAIRS: Values<(i128, i128)> = Values {
    nil: (WHOLE.nil, WHOLE.nil),
    plus: |x, y| ((WHOLE.plus)(x.0, y.0), (WHOLE.plus)(x.1, y.1)),
    scale: |a, x| ((WHOLE.scale)(a, x.0), (WHOLE.scale)(a, x.1)),
    less: |x, y| {
        let rest = (WHOLE.less)(x.1, y.1);
        lexicographic((WHOLE.less)(x.0, y.0), (WHOLE.less)(y.0, x.0), rest)
    },
};

/// f 0 + f 1 + .. + f (k - 1).
pub fn total<X: Copy>(values: &Values<X>, k: usize, f: impl Fn(usize) -> X) -> X {
    sum_by(values.nil, values.plus, k, f)
}
