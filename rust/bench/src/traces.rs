//! A replay of a problem's own trace, and the writing of it, beside the solve of
//! that problem: in one process, each first in turn, the least of many rounds.

use crate::sets::{LimitSet, ANSWER};
use scatterflock::raw;
use std::hint::black_box;
use std::time::Instant;

const ROUNDS: usize = 40;
/// How many problems are timed at once.
const FEW: usize = 20;

type Call = fn(&Traced, &mut Room);

struct Traced<'a> {
    words: &'a [i32],
    trace: Vec<u32>,
}

struct Room {
    answer: [i64; ANSWER],
    trace: Vec<u32>,
}

const CALLS: [Call; 3] = [
    |problem, room| assert_eq!(raw::solve(problem.words, &mut room.answer), 0),
    |problem, _| assert_eq!(raw::replay(problem.words, &problem.trace).number, 0),
    |problem, room| assert_eq!(raw::trace(problem.words, &mut room.trace).refused, 0),
];

pub fn heading() -> String {
    format!(
        "{:15}{:>9}{:>13}{:>8}{:>13}{:>8}",
        "ns a problem", "solve", "replay", "ratio", "trace", "ratio"
    )
}

pub fn line(set: &LimitSet) -> String {
    let traced = |words: &Vec<i32>| {
        let trace = scatterflock::trace(words).expect("the words are a problem");
        (words.clone(), trace)
    };
    let all: Vec<(Vec<i32>, Vec<u32>)> = set.problems.iter().map(traced).collect();
    let most = all.iter().map(|(_, trace)| trace.len()).max().unwrap_or(0);
    let problems: Vec<Traced> =
        all.iter().map(|(words, trace)| Traced { words, trace: trace.clone() }).collect();
    let [solve, replay, trace] = timed(&problems, most);
    format!(
        "{:15}{solve:9.0}{replay:13.0}{:8.2}{trace:13.0}{:8.2}",
        set.name,
        replay / solve,
        trace / solve
    )
}

/// ns a problem of each call.
fn timed(problems: &[Traced], most: usize) -> [f64; 3] {
    let mut room = Room { answer: [0; ANSWER], trace: vec![0; most] };
    let mut least = vec![[f64::INFINITY; 3]; problems.len().div_ceil(FEW)];
    for round in 0..ROUNDS {
        for (few, least) in problems.chunks(FEW).zip(&mut least) {
            for turn in 0..CALLS.len() {
                let at = (round + turn) % CALLS.len();
                let start = Instant::now();
                for problem in few {
                    CALLS[at](black_box(problem), black_box(&mut room));
                }
                least[at] = least[at].min(start.elapsed().as_nanos() as f64);
            }
        }
    }
    [0, 1, 2].map(|at| least.iter().map(|least| least[at]).sum::<f64>() / problems.len() as f64)
}
