//! The longest SMT-LIB text read back, and written, beside the solves of full-size
//! problems: in one process, each first in turn, the least of many rounds.

use crate::sets::{LimitSet, ANSWER};
use problems::draft::{between, Draft};
use scatterflock::raw;
use scatterflock::sizes::{
    LARGEST_COEFFICIENT, LARGEST_LIMIT, MOST_ROWS, MOST_SMTLIB, MOST_VARIABLES, MOST_WORDS,
};
use std::hint::black_box;
use std::time::Instant;

const ROUNDS: usize = 40;
/// How many calls are timed at once.
const FEW: usize = 20;

pub fn heading() -> String {
    format!(
        "{:15}{:>9}{:>13}{:>8}{:>13}{:>8}{:>8}",
        "ns a text", "solve", "read", "ratio", "written", "ratio", "bytes"
    )
}

/// The set has the solves that the longest text stands beside.
pub fn line(set: &LimitSet) -> String {
    let row = [-LARGEST_COEFFICIENT; MOST_VARIABLES];
    let limits = [between(-LARGEST_LIMIT, -LARGEST_LIMIT); MOST_VARIABLES + MOST_ROWS];
    let words = Draft::new(MOST_VARIABLES, &[&row[..]; MOST_ROWS], &limits).words();
    let mut text = vec![0; MOST_SMTLIB];
    let count = raw::smtlib_write(&words, &mut text).count;
    text.truncate(count);
    let [solve, read, written] = timed(set, &words, &text);
    format!(
        "{:15}{solve:9.0}{read:13.0}{:8.2}{written:13.0}{:8.2}{count:8}",
        set.name,
        read / solve,
        written / solve
    )
}

/// ns a solve of the set, a reading of the text and a writing of it.
fn timed(set: &LimitSet, words: &[i32], text: &[u8]) -> [f64; 3] {
    let (mut answer, mut room, mut bytes) = ([0; ANSWER], [0; MOST_WORDS], [0; MOST_SMTLIB]);
    let mut least = vec![[f64::INFINITY; 3]; set.problems.len().div_ceil(FEW)];
    for round in 0..ROUNDS {
        for (few, least) in set.problems.chunks(FEW).zip(&mut least) {
            for turn in 0..3 {
                let way = (round + turn) % 3;
                let start = Instant::now();
                for problem in few {
                    let number = match way {
                        0 => raw::solve(black_box(problem), black_box(&mut answer)),
                        1 => raw::smtlib_read(black_box(text), black_box(&mut room)).refused,
                        _ => raw::smtlib_write(black_box(words), black_box(&mut bytes)).refused,
                    };
                    assert_eq!(number, 0);
                }
                least[way] = least[way].min(start.elapsed().as_nanos() as f64);
            }
        }
    }
    let count = set.problems.len() as f64;
    [0, 1, 2].map(|way| least.iter().map(|least| least[way]).sum::<f64>() / count)
}
