//! Dense problems whose runs leave the range, and wide evidence that is nearly
//! right: numbers of four words each.

use crate::draft::{at_least, at_most, between, Draft, FREE};
use crate::random::Random;
use crate::strict;

/// The words of a number.
const LIMBS: usize = 4;
/// What all of them but the highest stay below.
const TURN: i64 = 1 << 32;

/// Words at and beside both ends of each limb, and of a word.
pub const EDGES: [i64; 14] = [
    i64::MIN,
    -TURN,
    -TURN / 2 - 1,
    -TURN / 2,
    -1,
    0,
    1,
    TURN / 2 - 1,
    TURN / 2,
    TURN - 1,
    TURN,
    TURN + 1,
    i64::MAX - 1,
    i64::MAX,
];

/// Numbers at both ends of each limb.
const NUMBERS: [i128; 14] = [
    i128::MIN,
    i128::MIN + 1,
    -(1 << 96),
    -(1 << 64) - 1,
    -(1 << 32),
    -1,
    0,
    1,
    (1 << 32) - 1,
    1 << 32,
    1 << 64,
    (1 << 96) - 1,
    i128::MAX - 1,
    i128::MAX,
];

/// Eight variables and 16 to 24 rows, with no coefficient left out and none
/// larger than that: numbers of two or three decimals, where limits are met
/// closely or just missed.
pub fn dense(random: &mut Random, largest: i32) -> Vec<i32> {
    let (n, m) = (8, random.size(16, 24));
    let number = |random: &mut Random| loop {
        let number = random.within(-largest, largest);
        if number != 0 {
            return number;
        }
    };
    let rows: Vec<Vec<i32>> = (0..m).map(|_| (0..n).map(|_| number(random)).collect()).collect();
    let point: Vec<i32> = (0..n).map(|_| random.within(-3, 3)).collect();
    let missed = random.pick(&[0, 0, 10, 25]);
    let sums = rows.iter().map(|row| row.iter().zip(&point).map(|(c, x)| c * x).sum());
    let values: Vec<i32> = point.iter().copied().chain(sums).collect();
    let limits = values.into_iter().enumerate().map(|(variable, value)| {
        let by = if random.percent(missed) { random.within(-largest, largest) } else { 0 };
        let value = (value + by).clamp(-29_990, 29_990);
        let slack = random.within(0, 9);
        match (variable < n, random.below(5)) {
            (true, 0..=2) => FREE,
            (_, 0 | 3) => at_least(value - slack),
            (_, 1) => at_most(value + slack),
            (true, _) => between(value - slack, value + slack),
            (false, _) => between(value, value + slack / 4),
        }
    });
    let limits = limits.collect();
    let draft = Draft { n, rows, limits };
    let is_strict = random.percent(30);
    if is_strict { strict::marked_draft(random, draft) } else { draft }.words()
}

/// Coefficients of 999 and 1,000 in the pattern of Hadamard's matrix of order 8,
/// where determinants are as large as they get: its rows, which have to equal a
/// number, and others of the same coefficients.
pub fn largest(random: &mut Random) -> Vec<i32> {
    let sign = |row: usize, column: usize| 1 - 2 * ((row & column).count_ones() % 2) as i32;
    let mut row = |signs: &dyn Fn(usize) -> i32| -> Vec<i32> {
        (0..8).map(|column| signs(column) * random.pick(&[999, 1_000])).collect()
    };
    let mut rows: Vec<Vec<i32>> = (0..8).map(|at| row(&|column| sign(at, column))).collect();
    rows.extend((0..16).map(|at| row(&|column| sign(at / 2, column) * sign(at, 3 * column))));
    let limits = (0..32).map(|variable| {
        let number = random.within(-30_000, 30_000);
        match (variable, random.below(2)) {
            (0..8, _) => FREE,
            (8..16, _) => between(number, number),
            (_, 0) => at_least(-number.abs()),
            _ => at_most(number.abs()),
        }
    });
    let limits = limits.collect();
    Draft { n: 8, rows, limits }.words()
}

/// A narrow answer's words as wide ones.
pub fn widened(answer: &[i64]) -> Vec<i64> {
    let numbers = answer[2..].iter().flat_map(|&word| limbs(word.into()));
    answer[..2].iter().copied().chain(numbers).collect()
}

/// The four words of a number.
pub fn limbs(number: i128) -> [i64; LIMBS] {
    let limb = |place: u32| (number >> (32 * place)) & i128::from(TURN - 1);
    [limb(0) as i64, limb(1) as i64, limb(2) as i64, (number >> 96) as i64]
}

/// The number of four words, which are in range.
pub fn number(limbs: &[i64]) -> i128 {
    limbs.iter().rev().fold(0, |above, &limb| (above << 32) | i128::from(limb))
}

/// A bent version of wide evidence for this problem.
pub fn bent(random: &mut Random, words: &[i32], evidence: &[i64]) -> Vec<i64> {
    let mut bent = evidence.to_vec();
    let place = random.below(bent.len());
    let slot = random.below((bent.len() - 2) / LIMBS);
    match random.below(16) {
        0 | 1 => bent[place] = bent[place].wrapping_add(random.pick(&[-1, 1])),
        2 => bent[place] = random.pick(&EDGES),
        3 => bent[random.below(6)] = random.pick(&EDGES),
        4 => bent[1] = random.bits() as i64,
        5 => bent.truncate(place),
        6 => bent.extend((0..random.size(1, 5)).map(|_| random.pick(&EDGES))),
        7 => change(&mut bent, |numbers| numbers[slot] = random.pick(&NUMBERS)),
        8 => {
            let by = random.pick(&[2, 3, 7, 1 << 20, 1 << 33, -1]);
            change(&mut bent, |numbers| {
                numbers.iter_mut().for_each(|number| *number = number.wrapping_mul(by));
            });
        }
        9 | 10 => change(&mut bent, |numbers| moved(random, words, numbers)),
        11 => {
            let other = random.below(bent.len());
            bent.swap(place, other);
        }
        12 => change(&mut bent, |numbers| {
            let half = numbers.len() / 2;
            numbers[1..].rotate_left(half);
        }),
        13 => random_numbers(random, &mut bent),
        14 => change(&mut bent, |numbers| {
            let half = numbers.len() / 2;
            let variable = random.below(half);
            for place in [1 + variable, 1 + half + variable] {
                numbers[place] = numbers[place].wrapping_add(1);
            }
        }),
        _ => change(&mut bent, |numbers| {
            let by = random.pick(&[-1, 1]);
            numbers[slot] = numbers[slot].wrapping_add(by << random.below(127));
        }),
    }
    bent
}

/// The numbers are changed, and written again.
fn change(evidence: &mut [i64], how: impl FnOnce(&mut [i128])) {
    let mut numbers: Vec<i128> = evidence[2..].chunks(LIMBS).map(number).collect();
    how(&mut numbers);
    let written = numbers.into_iter().flat_map(limbs);
    evidence[2..].iter_mut().zip(written).for_each(|(word, new)| *word = new);
}

/// Another point that keeps every row's sum, in numerators or in small parts: by
/// a little, by a whole, or by very much.
fn moved(random: &mut Random, words: &[i32], numbers: &mut [i128]) {
    let (n, m) = (words[0] as usize, words[1] as usize);
    let by = random.pick(&[1, -1, numbers[0], -numbers[0], 1 << 90, -(1 << 110)]);
    let half = if random.percent(50) { 1 } else { 1 + n + m };
    let variable = random.below(n);
    let part = &mut numbers[half..half + n + m];
    part[variable] = part[variable].wrapping_add(by);
    for row in 0..m {
        let coefficient = i128::from(words[2 + row * n + variable]);
        part[n + row] = part[n + row].wrapping_add(coefficient.wrapping_mul(by));
    }
}

/// Random numbers of any length under verdict 1 or 2.
fn random_numbers(random: &mut Random, evidence: &mut [i64]) {
    evidence[0] = 1 + random.below(2) as i64;
    change(evidence, |numbers| {
        for number in numbers.iter_mut() {
            let bits = i128::from(random.bits() as i64) << 64 | i128::from(random.bits());
            *number = bits >> random.below(128);
        }
        numbers[0] = random.pick(&[0, 1, numbers[0]]);
    });
}

#[cfg(test)]
mod tests {
    use super::*;

    #[test]
    fn numbers_and_their_words() {
        for at in NUMBERS {
            assert_eq!(number(&limbs(at)), at);
        }
        assert_eq!(limbs(-1), [TURN - 1, TURN - 1, TURN - 1, -1]);
        assert_eq!(limbs((3 << 96) + (2 << 32) + 5), [5, 2, 0, 3]);
        assert_eq!(widened(&[2, 7, -1]), [2, 7, TURN - 1, TURN - 1, TURN - 1, -1]);
    }
}
