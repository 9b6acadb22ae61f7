//! Calls of `check` with small parts, with pairs at and beside strict limits, and
//! with totals of 0.

use super::{Entry, Vector};
use problems::draft::{above, at_least, at_most, below, between, inside, Draft, FREE};
use problems::worked;

const LARGEST_SMALL: i64 = 17_179_869_176;

/// All of them.
pub fn all() -> Vec<Vector> {
    let mut vectors = small_parts();
    vectors.extend(bounds());
    vectors.extend(lone_pairs());
    vectors.extend(totals());
    vectors.extend(bent());
    vectors
}

fn check(name: impl Into<String>, draft: &Draft, answer: &[i64]) -> Vector {
    let (entry, words) = (Entry::Check, draft.words());
    Vector { name: name.into(), entry, words, out: answer.to_vec() }
}

fn can(over: i64, plain: &[i64], small: &[i64]) -> Vec<i64> {
    [&[1, 0, over], plain, small].concat()
}

/// Small parts where no limit is strict: they obey the rows.
fn small_parts() -> Vec<Vector> {
    let draft = Draft::new(2, &[&[1, 2]], &[between(1, 3), FREE, at_most(9)]);
    let tried: [[i64; 3]; 10] = [
        [0, 0, 0],
        [1, 0, 1],
        [-5, 2, -1],
        [0, -3, -6],
        [1, 0, 0],
        [0, 1, 1],
        [0, 0, 1],
        [0, 0, -1],
        [0, 0, i64::MIN],
        [i64::MAX, 0, i64::MAX],
    ];
    tried
        .iter()
        .map(|small| check(format!("small parts {small:?}"), &draft, &can(2, &[4, 0, 4], small)))
        .collect()
}

fn bounds() -> Vec<Vector> {
    let flat = Draft::new(1, &[&[1]], &[FREE, FREE]);
    let steep = Draft::new(1, &[&[8]], &[FREE, FREE]);
    let wide = Draft::new(8, &[&[1_000; 8]], &[FREE; 9]);
    let mut vectors = Vec::new();
    for number in [LARGEST_SMALL, LARGEST_SMALL + 1, i64::MAX] {
        for number in [number, -number] {
            let answer = can(1, &[0, 0], &[number, number]);
            vectors.push(check(format!("both small parts {number}"), &flat, &answer));
            let answer = can(1, &[0; 9], &[number; 9]);
            vectors.push(check(format!("nine small parts {number}"), &wide, &answer));
        }
    }
    for number in [LARGEST_SMALL / 8, LARGEST_SMALL / 8 + 1, i64::MIN] {
        let answer = can(1, &[0, 0], &[number, number.wrapping_mul(8)]);
        vectors.push(check(format!("a steep row, small part {number}"), &steep, &answer));
    }
    vectors
}

/// Pairs over 2 at and beside 3, against limits of 3 with and without a mark;
/// the same below 0.
fn lone_pairs() -> Vec<Vector> {
    let pairs =
        [(6, 0), (6, 1), (6, 2), (6, -1), (5, 9), (7, 0), (7, -LARGEST_SMALL), (5, LARGEST_SMALL)];
    let mut vectors = Vec::new();
    for (plain, small) in pairs {
        for limits in [at_least(3), above(3), [7, 3, 4], inside(3, 4), [11, 3, 4]] {
            let draft = Draft::new(1, &[], &[limits]);
            let name = format!("{plain} and {small} over 2 against {limits:?}");
            vectors.push(check(name, &draft, &[1, 0, 2, plain, small]));
        }
        for limits in [at_most(-3), below(-3), [11, -4, -3], inside(-4, -3)] {
            let draft = Draft::new(1, &[], &[limits]);
            let (plain, small) = (-plain, -small);
            let name = format!("{plain} and {small} over 2 against {limits:?}");
            vectors.push(check(name, &draft, &[1, 0, 2, plain, small]));
        }
    }
    vectors
}

/// Multipliers whose total is 0, with a strict limit among them, beside them or
/// nowhere; and totals of 1 and -1.
fn totals() -> Vec<Vector> {
    let told = |name: &str, limits: [[i32; 3]; 3]| {
        let draft = Draft::new(2, &[&[1, 1]], &limits);
        check(name, &draft, &[2, 0, 0, 1, 1, 0, 0, 0, 1])
    };
    let mut vectors = vec![
        told("total 0, none strict", [at_least(2), at_least(2), at_most(4)]),
        told("total 0, x strict", [above(2), at_least(2), at_most(4)]),
        told("total 0, y strict", [at_least(2), above(2), at_most(4)]),
        told("total 0, the row strict", [at_least(2), at_least(2), below(4)]),
        told("total 0, all strict", [above(2), above(2), below(4)]),
        told("total 0, the row's other limit strict", [at_least(2), at_least(2), [7, 0, 4]]),
        told("total 0, x's other limit strict", [[11, 2, 3], at_least(2), at_most(4)]),
        told("total -1, all strict", [above(2), above(2), below(5)]),
        told("total 1, all strict", [above(2), above(2), below(3)]),
    ];
    let strict = Draft::new(2, &[&[1, 1]], &[above(2), above(2), below(4)]);
    vectors.push(check("no multipliers, all strict", &strict, &[2, 0, 0, 0, 0, 0, 0, 0, 0]));
    vectors.push(check("column 0 does not cancel", &strict, &[2, 0, 0, 0, 2, 0, 0, 0, 1]));
    for kind in [3, 7, 11, 15] {
        let draft = Draft::new(1, &[], &[[kind, 5, 5]]);
        for times in [0, 1, 7] {
            let name = format!("kind {kind}, both limits 5, {times} times");
            vectors.push(check(name, &draft, &[2, 0, 0, times, times]));
        }
    }
    vectors
}

/// Each word of the strict cases' answers changed by one, and by the extremes.
fn bent() -> Vec<Vector> {
    let mut vectors = Vec::new();
    for case in worked::strict() {
        for place in 0..case.answer.len() {
            let right = case.answer[place];
            for word in [right + 1, right - 1, i64::MIN, i64::MAX] {
                let mut answer = case.answer.clone();
                answer[place] = word;
                let name = format!("{}, word {place} is {word} for {right}", case.name);
                let (entry, words) = (Entry::Check, case.words.clone());
                vectors.push(Vector { name, entry, words, out: answer });
            }
        }
    }
    vectors
}
