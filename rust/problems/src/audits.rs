//! Days' files as an auditor has them.

use crate::bundles::{body, edition, file, file_words, MOST_WORDS};
use crate::limits::Family;
use crate::random::Random;

/// The file of a day: up to the most bodies, small and large problems, limits that
/// cross, and what is refused. It is never refused itself.
pub fn audited(random: &mut Random) -> Vec<u8> {
    let (edition, most) = edition(random);
    let most = if random.percent(30) { most } else { 9 };
    let one = |random: &mut Random| match random.below(8) {
        0 => vec![1, 0, 3, random.within(0, 2), random.within(-1, 1)],
        1..=3 => Family::Tiny.words(random),
        _ => body(random),
    };
    let mut bodies: Vec<Vec<i32>> = (0..random.size(0, most)).map(|_| one(random)).collect();
    while file_words(edition, &bodies).len() > MOST_WORDS {
        bodies.pop();
    }
    file(edition, &bodies)
}
