//! Searches, sums and tables over the numbers below k, and common divisors.

/// The answer of f at the lowest number below k that has one.
pub fn lowest<A>(k: usize, f: impl Fn(usize) -> Option<A>) -> Option<A> {
    (0..k).find_map(f)
}

/// Some number below k passes the test.
pub fn some_below(k: usize, f: impl Fn(usize) -> bool) -> bool {
    (0..k).any(f)
}

/// Every number below k passes the test.
pub fn all_below(k: usize, f: impl Fn(usize) -> bool) -> bool {
    (0..k).all(f)
}

/// f 0 + f 1 + .. + f (k - 1), by a zero and an addition.
pub fn sum_by<X>(nil: X, plus: fn(X, X) -> X, k: usize, f: impl Fn(usize) -> X) -> X {
    (0..k).fold(nil, |sum, i| plus(sum, f(i)))
}

pub fn sum(k: usize, f: impl Fn(usize) -> i128) -> i128 {
    sum_by(0, |a, b| a + b, k, f)
}

/// f a, f (a + 1), .., k of them.
pub fn table_from<A>(a: usize, k: usize, f: impl Fn(usize) -> A) -> Vec<A> {
    (a..a + k).map(f).collect()
}

pub fn table<A>(k: usize, f: impl Fn(usize) -> A) -> Vec<A> {
    table_from(0, k, f)
}

/// g (k - 1) (.. (g 1 (g 0 a))).
pub fn fold_below<A>(k: usize, g: impl Fn(usize, A) -> A, a: A) -> A {
    (0..k).fold(a, |a, i| g(i, a))
}

/// k rows of k numbers.
pub fn matrix(k: usize, f: impl Fn(usize, usize) -> i128) -> Vec<Vec<i128>> {
    table(k, |v| table(k, |w| f(v, w)))
}

/// Euclid's turns, at most so many.
pub fn gcd_turns(k: u128, a: u128, b: u128) -> u128 {
    if k == 0 || b == 0 {
        a
    } else {
        gcd_turns(k - 1, b, a % b)
    }
}

/// The second number falls at each turn, so one more than it is enough turns.
pub fn gcd(a: u128, b: u128) -> u128 {
    gcd_turns(b + 1, a, b)
}

/// z is from -k to k.
pub fn within(k: u128, z: i128) -> bool {
    z.unsigned_abs() <= k
}

pub fn is_pos(z: i128) -> bool {
    0 < z
}

pub fn is_neg(z: i128) -> bool {
    z < 0
}
