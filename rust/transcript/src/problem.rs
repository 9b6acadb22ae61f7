//! The limit problem as words, its refusals in order, and what the words mean.

use crate::base::{all_below, some_below, within};

pub const MAX_N: i128 = 8;
pub const MAX_M: u32 = 24;
pub const MAX_COEFFICIENT: u128 = 1_000;
pub const MAX_LIMIT: u128 = 30_000;

/// Word i; a word that is not there is 0.
pub fn word(ws: &[i128], i: usize) -> i128 {
    ws.get(i).copied().unwrap_or(0)
}

fn nat_abs(z: i128) -> usize {
    z.unsigned_abs() as usize
}

pub fn n_of(ws: &[i128]) -> usize {
    nat_abs(word(ws, 0))
}

pub fn m_of(ws: &[i128]) -> usize {
    nat_abs(word(ws, 1))
}

/// All variables: the problem's, then one for each row.
pub fn vars_of(ws: &[i128]) -> usize {
    n_of(ws) + m_of(ws)
}

pub fn coefficient_word(ws: &[i128], i: usize, j: usize) -> i128 {
    word(ws, 2 + (i * n_of(ws) + j))
}

pub fn kind_place(ws: &[i128], v: usize) -> usize {
    2 + m_of(ws) * n_of(ws) + 3 * v
}

pub fn kind(ws: &[i128], v: usize) -> i128 {
    word(ws, kind_place(ws, v))
}

pub fn lower_word(ws: &[i128], v: usize) -> i128 {
    word(ws, kind_place(ws, v) + 1)
}

pub fn upper_word(ws: &[i128], v: usize) -> i128 {
    word(ws, kind_place(ws, v) + 2)
}

/// Bit b of a kind.
pub fn bit(b: u32, kind: i128) -> bool {
    kind.unsigned_abs() / 2_u128.pow(b) % 2 == 1
}

pub fn has_lower(kind: i128) -> bool {
    bit(0, kind)
}

pub fn has_upper(kind: i128) -> bool {
    bit(1, kind)
}

pub fn strict_lower(kind: i128) -> bool {
    bit(2, kind)
}

pub fn strict_upper(kind: i128) -> bool {
    bit(3, kind)
}

/// Outside 0 to 15, or a strict mark on a missing limit.
pub fn bad_kind_word(kind: i128) -> bool {
    outside(kind, 0, 15)
        || (strict_lower(kind) && !has_lower(kind))
        || (strict_upper(kind) && !has_upper(kind))
}

pub fn outside(z: i128, lo: i128, hi: i128) -> bool {
    z < lo || hi < z
}

pub fn bad_limit_word(present: bool, z: i128) -> bool {
    if present {
        !within(MAX_LIMIT, z)
    } else {
        z != 0
    }
}

pub fn too_few(ws: &[i128]) -> bool {
    ws.len() < 2
}

pub fn bad_size(rows: u32, ws: &[i128]) -> bool {
    outside(word(ws, 0), 1, MAX_N) || outside(word(ws, 1), 0, rows.into())
}

pub fn bad_length(ws: &[i128]) -> bool {
    ws.len() != 2 + m_of(ws) * n_of(ws) + 3 * vars_of(ws)
}

pub fn bad_coefficient(ws: &[i128]) -> bool {
    some_below(m_of(ws) * n_of(ws), |i| !within(MAX_COEFFICIENT, word(ws, 2 + i)))
}

pub fn bad_kind(ws: &[i128]) -> bool {
    some_below(vars_of(ws), |v| bad_kind_word(kind(ws, v)))
}

pub fn bad_limit(ws: &[i128]) -> bool {
    some_below(vars_of(ws), |v| {
        bad_limit_word(has_lower(kind(ws, v)), lower_word(ws, v))
            || bad_limit_word(has_upper(kind(ws, v)), upper_word(ws, v))
    })
}

pub fn blank_row(ws: &[i128], i: usize) -> bool {
    all_below(n_of(ws), |j| coefficient_word(ws, i, j) == 0)
}

pub fn some_blank(ws: &[i128]) -> bool {
    some_below(m_of(ws), |i| blank_row(ws, i))
}

pub fn too_short(ws: &[i128], out: usize) -> bool {
    out < 3 + 2 * vars_of(ws)
}

/// A test that is only run when no earlier one applied, and its number.
pub type Test<'a> = (Box<dyn Fn() -> bool + 'a>, u32);

/// The number beside the first test that applies, or 0.
pub fn first(tests: &[Test]) -> u32 {
    tests.iter().find(|(applies, _)| applies()).map_or(0, |(_, number)| *number)
}

/// Refusals 1 to 6, then 10: the problem alone.
pub fn problem_tests(rows: u32, ws: &[i128]) -> Vec<Test<'_>> {
    vec![
        (Box::new(|| too_few(ws)), 1),
        (Box::new(move || bad_size(rows, ws)), 2),
        (Box::new(|| bad_length(ws)), 3),
        (Box::new(|| bad_coefficient(ws)), 4),
        (Box::new(|| bad_kind(ws)), 5),
        (Box::new(|| bad_limit(ws)), 6),
        (Box::new(|| some_blank(ws)), 10),
    ]
}

/// Within so many rows.
pub fn refusal_within(rows: u32, ws: &[i128], out: usize) -> u32 {
    let mut tests = problem_tests(rows, ws);
    tests.push((Box::new(|| too_short(ws, out)), 7));
    first(&tests)
}

/// Within the most.
pub fn refusal(ws: &[i128], out: usize) -> u32 {
    refusal_within(MAX_M, ws, out)
}

/// As many rows as are asked for, and no more than the most.
pub fn rows_within(rows: u32) -> u32 {
    rows.min(MAX_M)
}

/// What the words mean. Limits are values of X.
pub struct Problem<'a, X> {
    pub n: usize,
    pub m: usize,
    pub coefficient: Box<dyn Fn(usize, usize) -> i128 + 'a>,
    pub lower: Box<dyn Fn(usize) -> Option<X> + 'a>,
    pub upper: Box<dyn Fn(usize) -> Option<X> + 'a>,
}

pub fn vars<X>(p: &Problem<X>) -> usize {
    p.n + p.m
}

pub fn present<X>(is: bool, x: X) -> Option<X> {
    if is {
        Some(x)
    } else {
        None
    }
}

/// A limit's number, and whether it is strict.
#[derive(Debug, Clone, Copy, PartialEq, Eq)]
pub struct Limit {
    pub plain: i128,
    pub strict: bool,
}

/// How many small amounts inside.
pub fn inset(strict: bool) -> i128 {
    if strict {
        1
    } else {
        0
    }
}

/// The pair that a limit stands for in the run.
pub fn lower_pair(l: Limit) -> (i128, i128) {
    (l.plain, inset(l.strict))
}

pub fn upper_pair(u: Limit) -> (i128, i128) {
    (u.plain, -inset(u.strict))
}

pub fn problem(ws: &[i128]) -> Problem<'_, Limit> {
    let lower = |v| Limit { plain: lower_word(ws, v), strict: strict_lower(kind(ws, v)) };
    let upper = |v| Limit { plain: upper_word(ws, v), strict: strict_upper(kind(ws, v)) };
    Problem {
        n: n_of(ws),
        m: m_of(ws),
        coefficient: Box::new(|i, j| coefficient_word(ws, i, j)),
        lower: Box::new(move |v| present(has_lower(kind(ws, v)), lower(v))),
        upper: Box::new(move |v| present(has_upper(kind(ws, v)), upper(v))),
    }
}

/// As the run reads it: each limit is the pair that it stands for.
pub fn inner<'a>(p: &'a Problem<'a, Limit>) -> Problem<'a, (i128, i128)> {
    Problem {
        n: p.n,
        m: p.m,
        coefficient: Box::new(|i, j| (p.coefficient)(i, j)),
        lower: Box::new(|v| (p.lower)(v).map(lower_pair)),
        upper: Box::new(|v| (p.upper)(v).map(upper_pair)),
    }
}
