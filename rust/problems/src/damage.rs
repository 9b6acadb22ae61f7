//! Words that are nearly right, and words that are not.

use crate::random::Random;

/// Words at and beside every edge of the rules, and the extremes of the type.
const EDGES: [i32; 35] = [
    -30_001,
    -30_000,
    30_000,
    30_001,
    -1_001,
    -1_000,
    1_000,
    1_001,
    -1,
    0,
    1,
    2,
    3,
    4,
    5,
    6,
    7,
    8,
    9,
    10,
    11,
    12,
    14,
    15,
    16,
    17,
    24,
    25,
    64,
    65,
    256,
    257,
    i32::MIN,
    i32::MAX,
    -2,
];

/// The words with one thing wrong, or with one word changed for another that
/// may pass as well.
pub fn damaged(random: &mut Random, mut words: Vec<i32>) -> Vec<i32> {
    let place = random.below(words.len());
    match random.below(16) {
        0 => words.truncate(random.below(words.len())),
        1 => words.truncate(words.len() - 1),
        2 => words.push(random.pick(&EDGES)),
        3 => words.extend(vec![0; random.size(1, 9)]),
        4 => words[random.below(2)] = random.pick(&EDGES),
        5 | 6 => words[place] = random.within(i32::MIN, i32::MAX),
        7..=9 => words[place] = words[place].wrapping_add(random.pick(&[-1, 1])),
        10 | 11 => {
            words[place] = random.pick(&EDGES);
            let other = random.below(words.len());
            words[other] = random.pick(&EDGES);
        }
        _ => words[place] = random.pick(&EDGES),
    }
    words
}

/// Random words of a random length. Some begin with a small n and m, and some
/// of those have the length that n and m ask for.
pub fn garbage(random: &mut Random) -> Vec<i32> {
    let length = random.pick(&[0, 1, 2, 3, 5, 8, 9, 13, 14, 40, 100, 202, 290, 291, 330]);
    let mut words: Vec<i32> = (0..length).map(|_| garbage_word(random)).collect();
    if random.percent(70) && words.len() >= 2 {
        let (n, m) = (random.size(1, 3), random.size(0, 3));
        words[0] = n as i32;
        words[1] = m as i32;
        if random.percent(80) {
            words.truncate(2);
            words.extend((0..m * n).map(|_| garbage_word(random) % 1_002));
            words.extend((0..n + m).flat_map(|_| garbage_limit(random)));
        }
    }
    words
}

fn garbage_word(random: &mut Random) -> i32 {
    match random.below(3) {
        0 => random.within(i32::MIN, i32::MAX),
        1 => random.within(-4, 4),
        _ => random.pick(&EDGES),
    }
}

/// The kinds that say which limits there are, and which are strict.
const KINDS: [i32; 9] = [0, 1, 2, 3, 5, 7, 10, 11, 15];

fn garbage_limit(random: &mut Random) -> [i32; 3] {
    let kind = match random.below(100) {
        0..=2 => garbage_word(random),
        3 | 4 => random.within(0, 15),
        5..=49 => random.within(0, 3),
        _ => random.pick(&KINDS),
    };
    let limit = |random: &mut Random, present: bool| {
        if present != random.percent(4) {
            garbage_word(random) % 30_005
        } else {
            0
        }
    };
    let lower = limit(random, kind & 1 != 0);
    let upper = limit(random, kind & 2 != 0);
    [kind, lower, upper]
}
