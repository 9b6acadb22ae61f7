//! Answers that are nearly right: a solver's answer with one thing changed,
//! which often makes it wrong and at times leaves it right.

use crate::random::Random;

/// Numbers at and beside the bounds that the checker tests, and the extremes.
const EDGES: [i64; 20] = [
    i64::MIN,
    i64::MIN + 1,
    -515_396_075_280_001,
    -515_396_075_280_000,
    -17_179_869_177,
    -17_179_869_176,
    -2_147_483_648,
    -1,
    0,
    1,
    2,
    3,
    2_147_483_647,
    2_147_483_648,
    17_179_869_176,
    17_179_869_177,
    515_396_075_280_000,
    515_396_075_280_001,
    i64::MAX - 1,
    i64::MAX,
];

/// A bent version of an answered problem's answer.
pub fn bent(random: &mut Random, words: &[i32], answer: &[i64]) -> Vec<i64> {
    let mut bent = answer.to_vec();
    let place = random.below(bent.len());
    match random.below(18) {
        0 | 1 => bent[place] = bent[place].wrapping_add(random.pick(&[-1, 1])),
        2 => bent[place] = random.pick(&EDGES),
        3 => bent[random.below(3)] = random.pick(&EDGES),
        4 | 5 => bent[1] = random.bits() as i64,
        6 => bent.truncate(place),
        7 => bent.extend((0..random.size(1, 5)).map(|_| random.pick(&EDGES))),
        8 => scale(&mut bent, random.pick(&[2, 3, 7, 1_000, 2_147_483_647])),
        9 => move_point(random, words, &mut bent),
        10 => idle_pair(random, &mut bent),
        11 => {
            let other = random.below(bent.len());
            bent.swap(place, other);
        }
        12 => noise(random, &mut bent),
        13 => nudge_small(random, words, &mut bent),
        14 => move_small(random, words, &mut bent),
        15 => clear_strict(random, words, &mut bent),
        16 => lone_pair(random, words, &mut bent),
        _ => swap_halves(&mut bent),
    }
    bent
}

/// The same point over a larger number, or more of every limit.
fn scale(answer: &mut [i64], factor: i64) {
    for word in &mut answer[2..] {
        *word = word.wrapping_mul(factor);
    }
}

/// Another point that keeps every row's sum: one variable is moved, and each
/// row by its coefficient. Multipliers are changed the same way.
fn move_point(random: &mut Random, words: &[i32], answer: &mut [i64]) {
    let by = random.pick(&[-1, 1]) * if random.percent(50) { answer[2].max(1) } else { 1 };
    move_part(random, words, &mut answer[3..], by);
}

/// The same of the second half, by a little or by as much as a small part may
/// be, or one more.
fn move_small(random: &mut Random, words: &[i32], answer: &mut [i64]) {
    let half = (answer.len() - 3) / 2;
    let most = 17_179_869_176;
    let by = random.pick(&[-1, 1, -3, 3, -most, most, -most - 1, most + 1]);
    move_part(random, words, &mut answer[3 + half..], by);
}

fn move_part(random: &mut Random, words: &[i32], part: &mut [i64], by: i64) {
    let (n, m) = (words[0] as usize, words[1] as usize);
    let variable = random.below(n);
    part[variable] = part[variable].wrapping_add(by);
    for row in 0..m {
        let coefficient = i64::from(words[2 + row * n + variable]);
        let sum = &mut part[n + row];
        *sum = sum.wrapping_add(coefficient.wrapping_mul(by));
    }
}

/// One more or one less of a small part, that of a row where there are rows.
fn nudge_small(random: &mut Random, words: &[i32], answer: &mut [i64]) {
    let (n, m) = (words[0] as usize, words[1] as usize);
    let variable = if m > 0 { n + random.below(m) } else { random.below(n) };
    let small = &mut answer[3 + n + m + variable];
    *small = small.wrapping_add(random.pick(&[-1, 1]));
}

/// Kind, lower and upper word of a variable.
fn limits_of(words: &[i32], variable: usize) -> [i32; 3] {
    let at = 2 + (words[0] * words[1]) as usize + 3 * variable;
    [words[at], words[at + 1], words[at + 2]]
}

/// No multiplier on one strict limit, where there is one that is named.
fn clear_strict(random: &mut Random, words: &[i32], answer: &mut [i64]) {
    let half = (answer.len() - 3) / 2;
    let marks = |variable: usize| limits_of(words, variable)[0];
    let strict: Vec<usize> = (0..half)
        .flat_map(|v| {
            let lower = (marks(v) & 4 != 0).then_some(3 + v);
            let upper = (marks(v) & 8 != 0).then_some(3 + half + v);
            [lower, upper].into_iter().flatten()
        })
        .filter(|&place| answer[place] != 0)
        .collect();
    if !strict.is_empty() {
        answer[random.pick(&strict)] = 0;
    }
}

/// A "cannot" by the two limits of one variable alone: one with equal limits
/// where there is such a one, so that the total is 0.
fn lone_pair(random: &mut Random, words: &[i32], answer: &mut [i64]) {
    let half = (answer.len() - 3) / 2;
    let equal = |&v: &usize| {
        let [kind, lower, upper] = limits_of(words, v);
        kind & 3 == 3 && lower == upper
    };
    let equals: Vec<usize> = (0..half).filter(equal).collect();
    let variable = if equals.is_empty() { random.below(half) } else { random.pick(&equals) };
    answer.fill(0);
    answer[0] = 2;
    for place in [3 + variable, 3 + half + variable] {
        answer[place] = 1;
    }
}

/// The same amount on both limits of one variable.
fn idle_pair(random: &mut Random, answer: &mut [i64]) {
    let variables = (answer.len() - 3) / 2;
    let variable = random.below(variables);
    for place in [3 + variable, 3 + variables + variable] {
        answer[place] = answer[place].wrapping_add(1);
    }
}

/// Small parts for plain ones, upper multipliers for lower ones.
fn swap_halves(answer: &mut [i64]) {
    let half = (answer.len() - 3) / 2;
    answer[3..].rotate_left(half);
}

/// Small numbers of no meaning under verdict 1 or 2.
fn noise(random: &mut Random, answer: &mut [i64]) {
    for word in &mut answer[2..] {
        *word = random.below(3) as i64;
    }
    answer[0] = 1 + random.below(2) as i64;
    if answer[0] == 2 || random.percent(50) {
        answer[2] = 2 - answer[0];
    }
}
