//! Traces: worked ones, and such that are nearly right.

use crate::draft::{above, at_least, below, between, Draft, FREE};
use crate::random::Random;
use crate::worked::case_a;

/// A problem with a trace, and what is answered.
pub struct Traced {
    /// The problem.
    pub words: Vec<i32>,
    /// The trace.
    pub trace: Vec<u32>,
    /// What is answered.
    pub answer: Answer,
}

/// The number, and the word and the step of a wrong one.
pub type Answer = (u32, u32, usize);

/// The trace of case A: 2 leaves and 0 enters, then 0, 3 and 4 are basic; 4
/// leaves and 1 enters, then 0, 1 and 3 are.
pub const TRACE_A: [u32; 6] = [2, 0, 25, 4, 1, 11];

/// The worked traces of docs/formats/trace.md.
pub fn worked() -> Vec<Traced> {
    let case_a = case_a().words;
    let inside = Draft::new(2, &[&[1, 1]], &[above(0), below(3), above(3)]).words();
    let crossed = Draft::new(1, &[], &[between(1, 0)]).words();
    let idle = Draft::new(1, &[], &[FREE]).words();
    let listed: [(&[i32], &[u32], Answer); 22] = [
        (&case_a, &TRACE_A, (0, 0, 0)),
        (&case_a, &[2, 0, 25, 3, 1, 11], (52, 0, 1)),
        (&case_a, &[2, 0, 25, 4, 2, 11], (52, 1, 1)),
        (&case_a, &[2, 0, 25, 4, 1, 25], (52, 2, 1)),
        (&case_a, &[3, 1, 0, 4, 1, 11], (52, 0, 0)),
        (&case_a, &[2, 0, 57, 4, 1, 11], (52, 2, 0)),
        (&case_a, &[2, 0, 2_147_483_673], (52, 2, 0)),
        (&case_a, &[], (53, 0, 0)),
        (&case_a, &[2, 0, 25], (53, 0, 0)),
        (&case_a, &[2, 0, 25, 4, 1, 11, 0, 0, 0], (54, 0, 0)),
        (&case_a, &[2, 0, 25, 4, 1, 10, 0, 0, 0], (52, 2, 1)),
        (&inside, &[2, 0, 1], (0, 0, 0)),
        (&crossed, &[], (0, 0, 0)),
        (&crossed, &[0, 0, 0], (54, 0, 0)),
        (&idle, &[], (0, 0, 0)),
        (&idle, &[0, 0, 0], (54, 0, 0)),
        (&wide(), &[3, 0, 49], (0, 0, 0)),
        (&wide(), &[], (53, 0, 0)),
        (&wide(), &[3, 0, 49, 4, 1, 35], (54, 0, 0)),
        (&idle, &[0], (51, 0, 0)),
        (&case_a, &[2, 0, 25, 4, 1, 11, 3, 1], (51, 0, 0)),
        (&[1], &[0], (1, 0, 0)),
    ];
    listed
        .into_iter()
        .map(|(words, trace, answer)| Traced { words: words.into(), trace: trace.into(), answer })
        .collect()
}

/// Three rows of large numbers: the second pivot leaves the range.
pub fn wide() -> Vec<i32> {
    let rows: [&[i32]; 3] = [&[919, 983, -909], &[-946, -964, -904], &[-955, 908, -911]];
    let limits = [FREE, FREE, FREE, at_least(9), at_least(9), at_least(9)];
    Draft::new(3, &rows, &limits).words()
}

/// Numbers beside the places where a shift or a comparison could slip.
const EDGES: [u32; 9] = [0, 1, 23, 24, 31, 32, 33, 1 << 31, u32::MAX];

/// A bent version of a problem's own trace. At times it is the trace itself.
pub fn bent(random: &mut Random, own: &[u32]) -> Vec<u32> {
    let mut bent = own.to_vec();
    let steps = own.len() / 3;
    match random.below(14) {
        0 => {}
        1 => bent.truncate(3 * random.below(steps + 1)),
        2 => bent.truncate(random.below(own.len() + 1)),
        3 => bent.extend((0..3 * random.size(1, 3)).map(|_| any(random))),
        4 => bent.extend((0..random.size(1, 4)).map(|_| any(random))),
        5 => bent = (0..random.below(10)).map(|_| any(random)).collect(),
        _ if steps == 0 => bent = (0..3 * random.below(3)).map(|_| any(random)).collect(),
        6 => bent.extend(&own[own.len() - 3..]),
        7 => {
            let (one, other) = (random.below(steps), random.below(steps));
            (0..3).for_each(|word| bent.swap(3 * one + word, 3 * other + word));
        }
        8 => {
            let step = 3 * random.below(steps);
            bent.swap(step, step + 1);
        }
        // the set before the pivot
        9 => {
            let step = 3 * random.below(steps);
            bent[step + 2] ^= 1 << (own[step] % 32) | 1 << (own[step + 1] % 32);
        }
        10 | 11 => bent[3 * random.below(steps) + 2] ^= 1 << random.below(32),
        12 => {
            let place = random.below(own.len());
            bent[place] = bent[place].wrapping_add(random.pick(&[1, u32::MAX]));
        }
        _ => bent[random.below(own.len())] = any(random),
    }
    bent
}

fn any(random: &mut Random) -> u32 {
    match random.below(4) {
        0 => random.bits() as u32,
        1 => random.pick(&EDGES),
        _ => random.below(24) as u32,
    }
}
