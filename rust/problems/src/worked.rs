//! The worked cases A to L of docs/RULES.md, those with strict limits, and those
//! with strict time rows.

use crate::draft::{above, at_least, at_most, below, between, inside, Draft, FREE};

/// A limit problem with the words of its answer.
pub struct Limits {
    /// The case's letter or title.
    pub name: &'static str,
    /// The problem.
    pub words: Vec<i32>,
    /// The whole answer.
    pub answer: Vec<i64>,
}

/// A limit problem that is refused.
pub struct Refused {
    /// The case's letter or title.
    pub name: &'static str,
    /// The words.
    pub words: Vec<i32>,
    /// The refusal's number.
    pub number: u32,
}

/// Time rows with what is right to answer.
pub struct Times {
    /// The case's letter.
    pub name: &'static str,
    /// The rows.
    pub words: Vec<i32>,
    /// The answer.
    pub answer: TimesAnswer,
}

/// An answer to time rows.
pub enum TimesAnswer {
    /// The time of each vertex: minutes, and small amounts.
    Times {
        /// The minutes.
        minutes: Vec<i64>,
        /// The small amounts.
        small: Vec<i64>,
    },
    /// The one bad cycle there is. An answer may start at any of its rows.
    Cycle(Vec<i64>),
}

fn can(name: &'static str, draft: Draft, pivots: i64, over: i64, numerators: &[i64]) -> Limits {
    can_by_pairs(name, draft, [pivots, over], numerators, &vec![0; numerators.len()])
}

/// Of pivots and denominator, numerators, and the small parts' numerators.
fn can_by_pairs(
    name: &'static str,
    draft: Draft,
    head: [i64; 2],
    plain: &[i64],
    small: &[i64],
) -> Limits {
    Limits { name, words: draft.words(), answer: [&[1], &head[..], plain, small].concat() }
}

fn cannot(name: &'static str, draft: Draft, pivots: i64, lower: &[i64], upper: &[i64]) -> Limits {
    let mut answer = vec![2, pivots, 0];
    answer.extend(lower);
    answer.extend(upper);
    Limits { name, words: draft.words(), answer }
}

/// Cases A to H, then those with strict limits.
pub fn limits() -> Vec<Limits> {
    lettered().into_iter().chain(strict()).collect()
}

/// Cases A to H.
pub fn lettered() -> Vec<Limits> {
    vec![case_a(), case_b(), case_c(), case_d(), case_e(), case_f(), case_g(), case_h()]
}

/// Strict limits: a start beside 0, a start conflict, pairs that are taken and
/// left, a contradiction with a total of 0, and small parts over 2.
pub fn strict() -> Vec<Limits> {
    let sum: [&[i32]; 1] = [&[1, 1]];
    let turned: [&[i32]; 2] = [&[2, 3], &[3, -2]];
    let touching = Draft::new(1, &[], &[[7, 5, 5]]);
    let pushed = Draft::new(2, &sum, &[above(0), below(3), above(3)]);
    let held = Draft::new(2, &sum, &[at_most(0), below(3), at_least(3)]);
    let narrow = Draft::new(2, &turned, &[FREE, FREE, inside(0, 1), above(0)]);
    vec![
        can_by_pairs("x > 0", Draft::new(1, &[], &[above(0)]), [0, 1], &[0], &[1]),
        cannot("5 < x <= 5", touching, 0, &[1], &[1]),
        can_by_pairs("x > 0, y < 3, x+y > 3", pushed, [1, 1], &[3, 0, 3], &[1, 0, 1]),
        cannot("x <= 0, y < 3, x+y >= 3", held, 1, &[0, 0, 1], &[1, 1, 0]),
        can_by_pairs("0 < 2x+3y < 1, 3x-2y > 0", narrow, [1, 2], &[0; 4], &[1, 0, 2, 3]),
    ]
}

/// Kinds that are none: a mark on a missing limit, and a number past 15.
pub fn bad_kinds() -> Vec<Refused> {
    [("kind 4", 4), ("kind 9", 9), ("kind 14", 14), ("kind 16", 16)]
        .map(|(name, kind)| {
            let words = Draft::new(1, &[], &[[kind, 0, 0]]).words();
            Refused { name, words, number: 5 }
        })
        .into()
}

/// Case I: a row of zeros.
pub fn case_i() -> Refused {
    let words = Draft::new(1, &[&[0]], &[FREE, at_least(1)]).words();
    Refused { name: "I", words, number: 10 }
}

/// Case A alone.
pub fn case_a() -> Limits {
    let rows: [&[i32]; 3] = [&[1, 1], &[2, -1], &[-1, 2]];
    let limits = [FREE, FREE, at_least(2), at_least(0), at_least(1)];
    can("A", Draft::new(2, &rows, &limits), 2, 3, &[3, 3, 6, 3, 3])
}

fn case_b() -> Limits {
    let rows: [&[i32]; 3] = [&[1, 1], &[-2, 1], &[-10, 1]];
    let limits = [FREE, FREE, at_least(0), at_least(2), at_least(-5)];
    can("B", Draft::new(2, &rows, &limits), 2, 3, &[-2, 2, 0, 6, 22])
}

fn case_c() -> Limits {
    let rows: [&[i32]; 3] = [&[1, 1], &[-1, -2], &[-1, 1]];
    let limits = [FREE, FREE, at_least(0), at_least(2), at_least(1)];
    cannot("C", Draft::new(2, &rows, &limits), 2, &[0, 0, 3, 2, 1], &[0; 5])
}

fn case_d() -> Limits {
    let rows: [&[i32]; 2] = [&[1, 2], &[2, 1]];
    let limits = [between(-1, 0), between(-4, 0), between(-5, -4), between(-7, 1)];
    can("D", Draft::new(2, &rows, &limits), 2, 2, &[-2, -3, -8, -7])
}

fn case_e() -> Limits {
    let rows: [&[i32]; 4] = [&[-1, 1], &[0, 1], &[-1, -1], &[3, -1]];
    let limits = [FREE, FREE, at_most(1), at_most(4), at_most(-6), at_most(7)];
    can("E", Draft::new(2, &rows, &limits), 2, 4, &[13, 11, -2, 11, -24, 28])
}

fn case_f() -> Limits {
    let limits = [at_least(2), at_least(2), at_most(3)];
    cannot("F", Draft::new(2, &[&[1, 1]], &limits), 0, &[1, 1, 0], &[0, 0, 1])
}

fn case_g() -> Limits {
    cannot("G", Draft::new(1, &[], &[between(1, 0)]), 0, &[1], &[1])
}

fn case_h() -> Limits {
    can("H", Draft::new(1, &[], &[FREE]), 0, 1, &[0])
}

/// Cases J to L; a row of less than a minute that is met; rows whose c sum to 0,
/// none strict, and one of them strict.
pub fn times() -> Vec<Times> {
    let rows_of_j =
        [[0, 1, 0, 5], [1, 0, 0, -5], [1, 2, 0, -2], [0, 2, 0, -3], [3, 0, 0, 2], [0, 3, 0, -2]];
    let mut rows_of_k = rows_of_j.to_vec();
    rows_of_k.push([2, 3, 0, -1]);
    vec![
        Times {
            name: "J",
            words: time_words(4, &rows_of_j),
            answer: TimesAnswer::Times { minutes: vec![5, 0, 8, 7], small: vec![0; 4] },
        },
        Times {
            name: "K",
            words: time_words(4, &rows_of_k),
            answer: TimesAnswer::Cycle(vec![3, 6, 4]),
        },
        Times {
            name: "L",
            words: time_words(1, &[[0, 0, 1, 0]]),
            answer: TimesAnswer::Cycle(vec![0]),
        },
        Times {
            name: "less than a minute",
            words: time_words(2, &[[0, 1, 1, 1], [1, 0, 1, 0]]),
            answer: TimesAnswer::Times { minutes: vec![0, 0], small: vec![1, 0] },
        },
        Times {
            name: "sum 0, none strict",
            words: time_words(2, &[[0, 1, 0, 1], [1, 0, 0, -1]]),
            answer: TimesAnswer::Times { minutes: vec![1, 0], small: vec![0, 0] },
        },
        Times {
            name: "sum 0, one strict",
            words: time_words(2, &[[0, 1, 1, 1], [1, 0, 0, -1]]),
            answer: TimesAnswer::Cycle(vec![0, 1]),
        },
    ]
}

/// The words of time rows over n vertices.
pub fn time_words(n: usize, rows: &[[i32; 4]]) -> Vec<i32> {
    let mut words = vec![n as i32, rows.len() as i32];
    words.extend(rows.iter().flatten());
    words
}

impl TimesAnswer {
    /// Whether these 2 + 2n words give this answer.
    pub fn is(&self, words: &[i64]) -> bool {
        match self {
            TimesAnswer::Times { minutes, small } => {
                words[..2] == [1, minutes.len() as i64]
                    && words[2..] == [&minutes[..], &small[..]].concat()
            }
            TimesAnswer::Cycle(cycle) => {
                let (listed, rest) = words[2..].split_at(cycle.len());
                words[..2] == [2, cycle.len() as i64]
                    && is_turned(listed, cycle)
                    && rest.iter().all(|&word| word == 0)
            }
        }
    }
}

/// Whether a list is another one, begun at any of its members.
fn is_turned(list: &[i64], other: &[i64]) -> bool {
    (0..other.len()).any(|turn| {
        let (head, tail) = other.split_at(turn);
        list == [tail, head].concat()
    })
}
