//! Strict marks, and limits that touch.

use crate::draft::{at_least, at_most, between, marked, repeated, Draft, FREE};
use crate::random::Random;

/// The words of an accepted problem, each present limit made strict or left as
/// it is. Equal ones are crossed when one of them is strict, so three of four
/// problems keep those.
pub fn with_marks(random: &mut Random, words: &[i32]) -> Vec<i32> {
    let (head, limits) = words.split_at(2 + (words[0] * words[1]) as usize);
    let keeps_equal = random.percent(75);
    let limits = limits
        .chunks_exact(3)
        .flat_map(|three| mark(random, [three[0], three[1], three[2]], keeps_equal));
    head.iter().copied().chain(limits).collect()
}

/// The same of a draft.
pub fn marked_draft(random: &mut Random, mut draft: Draft) -> Draft {
    let keeps_equal = random.percent(75);
    for limits in &mut draft.limits {
        *limits = mark(random, *limits, keeps_equal);
    }
    draft
}

fn mark(random: &mut Random, limits: [i32; 3], keeps_equal: bool) -> [i32; 3] {
    let (lower, upper) = (random.percent(50), random.percent(50));
    match limits {
        [3, one, other] if one == other && keeps_equal => limits,
        _ => marked(limits, lower, upper),
    }
}

/// Nearly every limit is what its variable has at one point, which is often 0.
/// So the point meets those that are not strict, and whether others exist that
/// meet the strict ones too is a matter of small amounts.
pub fn touching(random: &mut Random) -> Draft {
    let (n, m) = (random.size(1, 6), random.size(1, 10));
    let share = random.pick(&[10, 30, 60]);
    let farthest = random.pick(&[0, 0, 4]);
    let point: Vec<i32> = (0..n).map(|_| random.within(-farthest, farthest)).collect();
    let mut rows: Vec<Vec<i32>> = Vec::new();
    while rows.len() < m {
        let again = !rows.is_empty() && random.percent(25);
        rows.push(if again { repeated(random, &rows) } else { row(random, n) });
    }
    let sum = |row: &Vec<i32>| row.iter().zip(&point).map(|(c, x)| c * x).sum::<i32>();
    let values: Vec<i32> = point.iter().copied().chain(rows.iter().map(sum)).collect();
    let limits = values.into_iter().map(|value| limits_at(random, value, share)).collect();
    Draft { n, rows, limits }
}

/// A row of small coefficients that are not all 0.
fn row(random: &mut Random, n: usize) -> Vec<i32> {
    let mut row: Vec<i32> = (0..n).map(|_| random.within(-2, 2)).collect();
    if row.iter().all(|&coefficient| coefficient == 0) {
        row[random.below(n)] = random.pick(&[1, -1]);
    }
    row
}

/// Limits that the value touches. Equal ones are seldom strict: then they are
/// crossed, and nothing else counts.
fn limits_at(random: &mut Random, value: i32, share: usize) -> [i32; 3] {
    let (lower, upper) = (random.percent(share), random.percent(share));
    match random.below(10) {
        0..=2 => FREE,
        3..=5 => marked(at_least(value), lower, false),
        6 | 7 => marked(at_most(value), false, upper),
        8 if random.percent(90) => between(value, value),
        8 => marked(between(value, value), lower, upper),
        _ => marked(between(value - 1, value + random.within(0, 1)), lower, upper),
    }
}
