//! The checker of wide evidence beside the other one: on the same answers, once
//! in its numbers of one word and once in those of four, in one process, each
//! first in turn, the least of many rounds. Answers that are out of range are
//! left out, since they are no evidence.

use crate::sets::LimitSet;
use scatterflock::{raw, widened};
use std::hint::black_box;
use std::time::Instant;

const ROUNDS: usize = 40;
/// How many answers are timed at once.
const FEW: usize = 20;

struct Piece {
    words: Vec<i32>,
    narrow: Vec<i64>,
    wide: Vec<i64>,
}

const CALLS: [fn(&Piece); 2] = [
    |piece| assert_eq!(raw::check(&piece.words, &piece.narrow), 8),
    |piece| assert_eq!(raw::check_wide(&piece.words, &piece.wide), 8),
];

pub fn heading() -> String {
    format!("{:15}{:>9}{:>13}{:>8}", "ns an answer", "check", "check wide", "ratio")
}

pub fn line(set: &LimitSet) -> String {
    let answered = set.problems.iter().zip(&set.answers).filter(|(_, answer)| answer[0] != 3);
    let pieces: Vec<Piece> = answered
        .map(|(words, answer)| {
            let narrow = answer[..3 + 2 * (words[0] + words[1]) as usize].to_vec();
            Piece { words: words.clone(), wide: widened(&narrow), narrow }
        })
        .collect();
    let [check, wide] = timed(&pieces);
    format!("{:15}{check:9.0}{wide:13.0}{:8.2}", set.name, wide / check)
}

/// ns an answer of each call.
fn timed(pieces: &[Piece]) -> [f64; 2] {
    let mut least = vec![[f64::INFINITY; 2]; pieces.len().div_ceil(FEW)];
    for round in 0..ROUNDS {
        for (few, least) in pieces.chunks(FEW).zip(&mut least) {
            for turn in 0..CALLS.len() {
                let at = (round + turn) % CALLS.len();
                let start = Instant::now();
                for piece in few {
                    CALLS[at](black_box(piece));
                }
                least[at] = least[at].min(start.elapsed().as_nanos() as f64);
            }
        }
    }
    [0, 1].map(|at| least.iter().map(|least| least[at]).sum::<f64>() / pieces.len() as f64)
}
