//! The words of what was found.

use crate::problem::Problem;
use crate::run::{run, End};
use crate::whole::Whole;

/// Wide evidence for the problem of these words, which the archive does not
/// refuse: the verdict, 1 or 2, the pivots, and numbers of four words each. For
/// words that are no problem there is none, and none where a number has more
/// than 128 bits, which no problem of the rules comes to.
///
/// ```
/// // 5 times x is at least 3: x is 3/5, and the row 15/5
/// let words = [1, 1, 5, 0, 0, 0, 1, 3, 0];
/// let found = finder::find(&words).unwrap();
/// assert_eq!(found[..2], [1, 1]);
/// assert_eq!(found[2..6], [5, 0, 0, 0]);
/// assert_eq!(found[6..14], [3, 0, 0, 0, 15, 0, 0, 0]);
/// assert_eq!(found[14..], [0; 8]);
/// ```
#[must_use]
pub fn find(words: &[i32]) -> Option<Vec<i64>> {
    let problem = Problem::read(words)?;
    let (pivots, end) = run(&problem);
    let (verdict, over, [first, second]) = match end {
        End::Can { over, parts } => (1, over, parts),
        End::Cannot { times } => (2, Whole::ZERO, times),
    };
    let mut evidence = vec![verdict, i64::try_from(pivots).ok()?];
    for number in [over].iter().chain(&first).chain(&second) {
        evidence.extend(limbs(number.to_i128()?));
    }
    Some(evidence)
}

/// Four words: three from 0 to 2^32 - 1, the lowest first, and one with a sign.
fn limbs(number: i128) -> [i64; 4] {
    let limb = |place: u32| (number >> (32 * place)) as u32;
    [limb(0).into(), limb(1).into(), limb(2).into(), (number >> 96) as i64]
}
