//! Evidence about time rows that is nearly right: times or a cycle with one
//! thing changed, which often makes them wrong and at times leaves them right.

use crate::random::Random;

/// Words at and beside what is tested, and both ends of 64 bits.
pub const EDGES: [i64; 14] = [
    i64::MIN,
    i64::MIN + 1,
    -30_001,
    -30_000,
    -1,
    0,
    1,
    2,
    63,
    64,
    255,
    256,
    i64::MAX - 1,
    i64::MAX,
];

/// A bent version of the answer to rows that have one.
pub fn bent(random: &mut Random, answer: &[i64]) -> Vec<i64> {
    let mut bent = answer.to_vec();
    let place = random.below(bent.len());
    let half = (bent.len() - 2) / 2;
    match random.below(14) {
        0 | 1 => bent[place] = bent[place].wrapping_add(random.pick(&[-1, 1])),
        2 => bent[place] = random.pick(&EDGES),
        3 => bent[random.below(2)] = random.pick(&EDGES),
        4 => bent.truncate(place),
        5 => bent.extend((0..random.size(1, 5)).map(|_| random.pick(&EDGES))),
        6 | 7 => {
            let part = if random.percent(70) { 2..2 + half } else { 2 + half..2 + 2 * half };
            shift(random, &mut bent[part]);
        }
        8 => {
            let by = random.pick(&[-1, 2, 3, i64::MAX]);
            bent[2..].iter_mut().for_each(|word| *word = word.wrapping_mul(by));
        }
        9 => {
            let other = random.below(bent.len());
            bent.swap(place, other);
        }
        10 => turn(random, &mut bent),
        11 => bent[2..].rotate_left(half),
        12 => bent[2..].iter_mut().for_each(|word| *word = random.bits() as i64),
        _ => lengthen(random, &mut bent),
    }
    bent
}

/// All of these words by the same amount: any, or so much that one of them is at
/// an end of 64 bits, or past it.
fn shift(random: &mut Random, part: &mut [i64]) {
    let (least, most) = part.iter().fold((0, 0), |(l, m), &word| (word.min(l), word.max(m)));
    let by = match random.below(4) {
        0 => random.within(-1_000, 1_000).into(),
        1 => i64::MAX - most,
        2 => i64::MIN - least,
        _ => (i64::MAX - most).wrapping_add(1),
    };
    part.iter_mut().for_each(|word| *word = word.wrapping_add(by));
}

/// The rows of a cycle from another one on, or the other way round.
fn turn(random: &mut Random, answer: &mut [i64]) {
    let most = answer.len() - 2;
    let count = usize::try_from(answer[1]).map_or(most, |count| count.min(most));
    let listed = &mut answer[2..2 + count];
    match random.below(3) {
        0 => listed.reverse(),
        _ if count > 0 => listed.rotate_left(random.below(count)),
        _ => {}
    }
}

/// One row of a cycle more, an earlier one or the first again and again, or one
/// less.
fn lengthen(random: &mut Random, answer: &mut [i64]) {
    let most = answer.len() - 2;
    let Ok(count @ 1..) = usize::try_from(answer[1]) else { return };
    if count >= most || random.percent(30) {
        answer[1] -= 1;
        return;
    }
    answer[2 + count] = answer[2 + random.below(count)];
    answer[1] += 1;
}
