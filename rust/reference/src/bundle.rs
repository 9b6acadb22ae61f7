//! A day's file: many problems in one, read, written and printed.
//!
//! Renders "A day's file" of docs/RULES.md.

use crate::program::body_text;

/// The words of a file.
const FEWEST_WORDS: usize = 2;
const MOST_WORDS: usize = 16_384;

/// What an edition of the file allows.
struct Edition {
    /// Word 0.
    number: i32,
    most_bodies: usize,
    /// Of a body.
    most_rows: u32,
}

/// Every edition there is.
const EDITIONS: [Edition; 2] = [
    Edition { number: 1, most_bodies: 64, most_rows: 16 },
    Edition { number: 2, most_bodies: 48, most_rows: 24 },
];

/// What a reader tells of a file.
#[derive(Debug, Clone, Copy, PartialEq, Eq)]
pub struct Contents {
    /// 0, or 30 to 36.
    pub refused: u32,
    /// The edition; 0 where the file is refused.
    pub edition: u32,
    /// How many bodies there are; 0 where the file is refused.
    pub bodies: usize,
}

/// A file that is not refused.
struct Bundle {
    edition: &'static Edition,
    bodies: Vec<Vec<i32>>,
}

impl Bundle {
    /// The bundle of the bytes, or the number that refuses them. Each test is made
    /// over the whole file before the next.
    fn read(file: &[u8]) -> Result<Bundle, u32> {
        let in_words = FEWEST_WORDS..=MOST_WORDS;
        if !file.len().is_multiple_of(4) || !in_words.contains(&(file.len() / 4)) {
            return Err(30);
        }
        let word = |four: &[u8]| i32::from_le_bytes(four.try_into().expect("four bytes"));
        let words: Vec<i32> = file.chunks(4).map(word).collect();
        let edition = EDITIONS.iter().find(|edition| edition.number == words[0]).ok_or(31_u32)?;
        if words[1] < 0 || words[1] as usize > edition.most_bodies {
            return Err(32);
        }
        let first_body = 2 + 2 * words[1] as usize;
        if words.len() < first_body {
            return Err(33);
        }
        let pairs = &words[2..first_body];
        if !pairs_pass(pairs) {
            return Err(34);
        }
        if end_of(pairs) != words.len() as i128 {
            return Err(35);
        }
        let body = |pair: &[i32]| words[pair[0] as usize..][..pair[1] as usize].to_vec();
        Ok(Bundle { edition, bodies: pairs.chunks(2).map(body).collect() })
    }
}

/// The most rows of a file's bodies and the bodies, or the number that refuses it.
pub fn bodies_in(file: &[u8]) -> Result<(u32, Vec<Vec<i32>>), u32> {
    Bundle::read(file).map(|bundle| (bundle.edition.most_rows, bundle.bodies))
}

/// Whether no length is negative and each body starts right behind the one before
/// it, the first behind all pairs. Places are summed as whole numbers.
fn pairs_pass(pairs: &[i32]) -> bool {
    let is_right = |(place, pair): (usize, &[i32])| {
        let start = 2 + pairs.len() as i128 + total(&pairs[..2 * place]);
        pair[1] >= 0 && i128::from(pair[0]) == start
    };
    pairs.chunks(2).enumerate().all(is_right)
}

/// The place behind the last body.
fn end_of(pairs: &[i32]) -> i128 {
    2 + pairs.len() as i128 + total(pairs)
}

/// The lengths of some pairs, summed.
fn total(pairs: &[i32]) -> i128 {
    pairs.chunks(2).map(|pair| i128::from(pair[1])).sum()
}

/// Reads a file into the lengths of its bodies and their words, one body behind
/// the other. A refusal leaves both as they were.
pub fn bundle_read(file: &[u8], lengths: &mut [i32], words: &mut [i32]) -> Contents {
    let refused = |number| Contents { refused: number, edition: 0, bodies: 0 };
    let bundle = match Bundle::read(file) {
        Ok(bundle) => bundle,
        Err(number) => return refused(number),
    };
    let found: Vec<i32> = bundle.bodies.iter().map(|body| body.len() as i32).collect();
    let joined = bundle.bodies.concat();
    if lengths.len() < found.len() || words.len() < joined.len() {
        return refused(36);
    }
    lengths[..found.len()].copy_from_slice(&found);
    words[..joined.len()].copy_from_slice(&joined);
    Contents { refused: 0, edition: bundle.edition.number as u32, bodies: found.len() }
}

/// Writes a file of an edition from the lengths of its bodies and their words. No
/// body is judged. A refusal leaves the output as it was.
pub fn bundle_write(edition: u32, lengths: &[i32], words: &[i32], file: &mut [u8]) -> u32 {
    let known = EDITIONS.iter().find(|known| i64::from(known.number) == i64::from(edition));
    let Some(edition) = known else {
        return 31;
    };
    if lengths.len() > edition.most_bodies {
        return 32;
    }
    if lengths.iter().any(|&length| length < 0) {
        return 34;
    }
    if lengths.iter().map(|&length| i128::from(length)).sum::<i128>() != words.len() as i128 {
        return 35;
    }
    let mut all = vec![edition.number, lengths.len() as i32];
    let mut start = 2 + 2 * lengths.len() as i32;
    for &length in lengths {
        all.extend([start, length]);
        start += length;
    }
    all.extend(words);
    if all.len() > MOST_WORDS {
        return 30;
    }
    let bytes: Vec<u8> = all.iter().flat_map(|word| word.to_le_bytes()).collect();
    if file.len() < bytes.len() {
        return 36;
    }
    file[..bytes.len()].copy_from_slice(&bytes);
    0
}

/// Everything that is printed for a file: each body as the program prints a
/// problem, in their order, or the line of the file's refusal.
pub fn day_text(file: &[u8]) -> Vec<u8> {
    match Bundle::read(file) {
        Ok(bundle) => {
            let text = |body: &Vec<i32>| body_text(bundle.edition.most_rows, body);
            bundle.bodies.iter().flat_map(text).collect()
        }
        Err(refusal) => format!("refused {refusal}\n").into_bytes(),
    }
}

/// Prints a file, and says how long its text is. Where there is no room for all of
/// it, nothing is written.
pub fn day(file: &[u8], text: &mut [u8]) -> usize {
    let printed = day_text(file);
    if let Some(front) = text.get_mut(..printed.len()) {
        front.copy_from_slice(&printed);
    }
    printed.len()
}
