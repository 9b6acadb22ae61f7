//! Days' files: a worked one, random ones by family, and calls of a writer.

use crate::damage;
use crate::limits;
use crate::published::published;
use crate::random::Random;
use crate::worked;

/// The bodies of a file of each edition, from 1 on.
pub const MOST_BODIES: [usize; 2] = [64, 48];
/// The words of a file.
pub const MOST_WORDS: usize = 16_384;

/// The bodies of the file of docs/formats/bundle.md: A, G, nothing, one word, A
/// without its last word, C, a run that is out of range, a coefficient of 1,001,
/// F and H.
pub fn ten_bodies() -> Vec<Vec<i32>> {
    let case = |name| {
        let lettered = worked::lettered().into_iter();
        lettered.map(|case| (case.name, case.words)).find(|case| case.0 == name).expect("it is").1
    };
    let without_last = case("A").split_last().expect("it has words").1.to_vec();
    let range = published().into_iter().find(|case| case.answer[0] == 3).expect("there is one");
    vec![
        case("A"),
        case("G"),
        vec![],
        vec![3],
        without_last,
        case("C"),
        range.words,
        vec![1, 1, 1_001, 0, 0, 0, 0, 0, 0],
        case("F"),
        case("H"),
    ]
}

/// The words of the file that has these bodies, however many and long they are.
pub fn file_words(edition: u32, bodies: &[Vec<i32>]) -> Vec<i32> {
    let mut words = vec![edition as i32, bodies.len() as i32];
    let mut start = 2 + 2 * bodies.len();
    for body in bodies {
        words.extend([start as i32, body.len() as i32]);
        start += body.len();
    }
    words.extend(bodies.iter().flatten());
    words
}

/// Words as bytes, four each, the lowest first.
pub fn bytes(words: &[i32]) -> Vec<u8> {
    words.iter().flat_map(|word| word.to_le_bytes()).collect()
}

/// The file that has these bodies.
pub fn file(edition: u32, bodies: &[Vec<i32>]) -> Vec<u8> {
    bytes(&file_words(edition, bodies))
}

/// An edition that there is, and how many bodies its files have.
pub(crate) fn edition(random: &mut Random) -> (u32, usize) {
    let edition = random.size(1, 2);
    (edition as u32, MOST_BODIES[edition - 1])
}

/// A family of files.
#[derive(Debug, Clone, Copy, PartialEq, Eq)]
pub enum Family {
    /// Up to six bodies, problems of every family and what is none.
    Whole,
    /// Up to the most bodies, with few words.
    Many,
    /// As many words as a file has, or nearly.
    Long,
    /// Something wrong with edition, count or pairs.
    Head,
    /// Lengths so large that a place would wrap.
    Wrapping,
    /// Cut, or with something behind the last body.
    Cut,
    /// Words of no meaning.
    Garbage,
}

impl Family {
    /// Every family.
    pub const ALL: [Family; 7] = [
        Family::Whole,
        Family::Many,
        Family::Long,
        Family::Head,
        Family::Wrapping,
        Family::Cut,
        Family::Garbage,
    ];

    /// The bytes of a file of this family.
    pub fn file(self, random: &mut Random) -> Vec<u8> {
        let (edition, most) = edition(random);
        match self {
            Family::Whole => file(edition, &bodies(random, 6)),
            Family::Many => file(edition, &small_bodies(random, most)),
            Family::Long => long(random, edition, most),
            Family::Head => bytes(&damaged_head(random, edition, most)),
            Family::Wrapping => bytes(&wrapping(random, edition)),
            Family::Cut => cut(random, edition),
            Family::Garbage => bytes(&garbage(random, edition)),
        }
    }
}

/// Some bodies, at most so many.
fn bodies(random: &mut Random, most: usize) -> Vec<Vec<i32>> {
    (0..random.size(0, most)).map(|_| body(random)).collect()
}

pub(crate) fn body(random: &mut Random) -> Vec<i32> {
    match random.below(10) {
        0 => vec![],
        1 => vec![random.within(-1, 9)],
        _ => limits::Family::ALL[random.below(limits::Family::ALL.len())].words(random),
    }
}

/// Some bodies of few words, at most so many, and often just so many.
fn small_bodies(random: &mut Random, most: usize) -> Vec<Vec<i32>> {
    let count = if random.percent(30) { most } else { random.size(0, most) };
    let one = |random: &mut Random| match random.below(3) {
        0 => vec![random.within(-9, 9); random.size(0, 5)],
        1 => [&[1, 0], &random.pick(&[[1, 5, 0], [3, 1, 0], [0, 0, 0], [4, 0, 0]])[..]].concat(),
        _ => limits::Family::Tiny.words(random),
    };
    (0..count).map(|_| one(random)).collect()
}

/// A file of just as many words as there may be, of one more, or of a few less.
fn long(random: &mut Random, edition: u32, most: usize) -> Vec<u8> {
    let mut all = small_bodies(random, most - 1);
    let size = MOST_WORDS + 1 - random.pick(&[0, 1, 1, 2, 9]);
    let rest = size - 2 - file_words(edition, &all).len();
    let at = random.size(0, all.len());
    all.insert(at, (0..rest).map(|_| random.within(-9, 9)).collect());
    file(edition, &all)
}

/// Numbers that an edition or a count may be damaged to.
const FRONT: [i32; 14] = [-1, 0, 1, 2, 3, 47, 48, 49, 64, 65, 66, 256, i32::MIN, i32::MAX];

/// A word or two of the head are others, or pairs change their places.
fn damaged_head(random: &mut Random, edition: u32, most: usize) -> Vec<i32> {
    let few = if random.percent(20) { most } else { 5 };
    let mut all = small_bodies(random, few);
    if random.percent(10) {
        all.resize(most + random.size(0, 2), vec![]);
    }
    let count = all.len();
    let mut words = file_words(edition, &all);
    match random.below(12) {
        0 => words[0] = random.pick(&FRONT),
        1 => words[1] = random.pick(&FRONT),
        2 => words[1] += random.pick(&[-1, 1]),
        3 if count > 1 => words.swap(2, 4),
        4 if count > 1 => words.swap(3, 2 * count + 1),
        5 => words.truncate(random.size(2, 2 + 2 * count)),
        _ if count > 0 => {
            for _ in 0..random.size(1, 2) {
                let place = random.size(2, 2 * count + 1);
                words[place] = match random.below(4) {
                    0 => random.within(i32::MIN, i32::MAX),
                    1 => words[place].wrapping_neg(),
                    _ => words[place].wrapping_add(random.pick(&[-1, 1, 2])),
                };
            }
        }
        _ => words[random.below(2)] = random.pick(&FRONT),
    }
    words
}

/// Pairs whose places are right in 32 bits that wrap, and in whole numbers not.
fn wrapping(random: &mut Random, edition: u32) -> Vec<i32> {
    let count = random.size(2, 5);
    let mut words = vec![edition as i32, count as i32];
    let mut start = 2 + 2 * count as i32;
    for _ in 0..count {
        let length = match random.below(4) {
            0 => i32::MAX,
            1 => 1 << 30,
            2 => random.within(0, i32::MAX),
            _ => random.within(0, 9),
        };
        words.extend([start, length]);
        start = start.wrapping_add(length);
    }
    let rest = if (words.len() as i32..999).contains(&start) { start as usize } else { 20 };
    words.resize(rest.max(words.len()), 7);
    words
}

/// The bytes of a file, some of them left out at the end or more behind it.
fn cut(random: &mut Random, edition: u32) -> Vec<u8> {
    let mut bytes = file(edition, &bodies(random, 3));
    match random.below(4) {
        0 => bytes.truncate(random.below(bytes.len())),
        1 => bytes.truncate(bytes.len() - 4),
        2 => bytes.extend(vec![0; random.size(1, 4)]),
        _ => bytes.extend(vec![1; 4 * random.size(1, 3)]),
    }
    bytes
}

/// Words of no meaning, often behind a right edition and count.
fn garbage(random: &mut Random, edition: u32) -> Vec<i32> {
    let mut words = damage::garbage(random);
    if random.percent(70) && words.len() >= 2 {
        words[0] = edition as i32;
        words[1] = random.within(-1, 3);
    }
    words
}

/// What a writer is told: an edition, lengths, and words. Nearly one
/// in two is right.
pub fn writing(random: &mut Random) -> (u32, Vec<i32>, Vec<i32>) {
    let (edition, most) = edition(random);
    let few = if random.percent(40) { most } else { 5 };
    let all = small_bodies(random, few);
    let mut lengths: Vec<i32> = all.iter().map(|body| body.len() as i32).collect();
    let mut words = all.concat();
    match random.below(16) {
        0 => lengths.resize(most + random.size(1, 3), 0),
        1 => lengths.resize(most + random.size(0, 1), -1),
        2 => words.push(0),
        3 if !words.is_empty() => words.truncate(words.len() - 1),
        4 | 5 if !lengths.is_empty() => {
            let place = random.below(lengths.len());
            lengths[place] = match random.below(4) {
                0 => -lengths[place] - 1,
                1 => i32::MIN,
                2 => i32::MAX,
                _ => lengths[place] + 1,
            };
        }
        6 if lengths.len() > 1 => {
            lengths[0] += lengths[1] + 1;
            lengths[1] = -1;
        }
        7 if lengths.len() > 2 => lengths[..3].copy_from_slice(&[i32::MAX, i32::MAX, 2]),
        8 | 9 => {
            lengths.truncate(most - 1);
            words.truncate(lengths.iter().sum::<i32>() as usize);
            let head = 4 + 2 * lengths.len();
            let rest = MOST_WORDS - head - words.len() + random.size(0, 1);
            lengths.push(rest as i32);
            words.extend(vec![5; rest]);
        }
        _ => {}
    }
    let unknown = random.pick(&[0, 3, 4, 1 << 8, 1 << 31, u32::MAX]);
    (if random.percent(6) { unknown } else { edition }, lengths, words)
}
