//! The tableau by variable, and the pivot.

use crate::base::{all_below, fold_below, gcd, is_neg, matrix, within};

pub const MAX_NUMBER: u128 = 2_147_483_647;

/// Row v says: den times variable v is the sum of the row's entries, each
/// times its variable. An entry at a basic variable is 0. The row of a
/// nonbasic variable is den at itself and 0 elsewhere.
#[derive(Clone)]
pub struct Tableau {
    pub den: i128,
    pub rows: Vec<Vec<i128>>,
}

pub fn entry(t: &Tableau, v: usize, w: usize) -> i128 {
    t.rows.get(v).and_then(|row| row.get(w)).copied().unwrap_or(0)
}

/// Row r as an equation "the sum is 0": its entries, and minus den at r itself.
pub fn relation(t: &Tableau, r: usize, u: usize) -> i128 {
    if u == r {
        -t.den
    } else {
        entry(t, r, u)
    }
}

/// Row r is solved for w, and w is put into each row: the row times the pivot,
/// less its entry at w times the relation.
pub fn solved(n: usize, t: &Tableau, r: usize, w: usize) -> Tableau {
    let pivot = entry(t, r, w);
    Tableau {
        den: pivot * t.den,
        rows: matrix(n, |v, u| pivot * entry(t, v, u) - entry(t, v, w) * relation(t, r, u)),
    }
}

/// The greatest common divisor of den and all entries.
pub fn common(n: usize, t: &Tableau) -> u128 {
    let row = |v, g| fold_below(n, |u, h| gcd(entry(t, v, u).unsigned_abs(), h), g);
    fold_below(n, row, t.den.unsigned_abs())
}

/// .. with the sign of den.
pub fn divisor(n: usize, t: &Tableau) -> i128 {
    let common = common(n, t) as i128;
    if is_neg(t.den) {
        -common
    } else {
        common
    }
}

/// Lowest common form, with den above 0.
pub fn reduced(n: usize, t: &Tableau) -> Tableau {
    let d = divisor(n, t);
    Tableau { den: t.den / d, rows: matrix(n, |v, u| entry(t, v, u) / d) }
}

pub fn pivot(n: usize, t: &Tableau, r: usize, w: usize) -> Tableau {
    reduced(n, &solved(n, t, r, w))
}

pub fn small(n: usize, t: &Tableau) -> bool {
    within(MAX_NUMBER, t.den)
        && all_below(n, |v| all_below(n, |u| within(MAX_NUMBER, entry(t, v, u))))
}
