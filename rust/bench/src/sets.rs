//! The problems that are measured.

use problems::random::Random;
use problems::strict::with_marks;
use problems::{limits, points, times};

const SIZE: u64 = 600;
/// The most words of an answer to a limit problem.
pub const ANSWER: usize = 67;

/// Limit problems with their answers.
pub struct LimitSet {
    pub name: String,
    pub problems: Vec<Vec<i32>>,
    pub answers: Vec<[i64; ANSWER]>,
}

/// Time rows.
pub struct TimeSet {
    pub name: &'static str,
    pub problems: Vec<Vec<i32>>,
}

/// Tiny, medium, full, largest and oven-like problems, each of mixed verdicts;
/// the sets around points, with ovens of 8 zones and 16 rows; then the problems of
/// the first sets again, about every other limit strict.
pub fn limits(seed: u64) -> Vec<LimitSet> {
    use limits::Family::{Full, Largest, Medium, Oven, Tiny};
    let families = [Tiny, Medium, Full, Largest, Oven];
    let unmarked = families.map(|family| {
        LimitSet::new(family.name().to_string(), drawn(seed, |random| family.words(random)))
    });
    let around = points::SETS.map(|(name, draft)| {
        LimitSet::new(format!("{name}, points"), drawn(seed, |random| draft(random).words()))
    });
    let marked = families.map(|family| {
        let words = |random: &mut Random| {
            let words = family.words(random);
            with_marks(random, &words)
        };
        LimitSet::new(format!("{}, strict", family.name()), drawn(seed, words))
    });
    unmarked.into_iter().chain(around).chain(marked).collect()
}

/// Random rows of either verdict, chains listed either way, and bad rings.
pub fn times(seed: u64) -> Vec<TimeSet> {
    use times::Family::{BadRing, ChainBackward, ChainForward, Feasible, Infeasible};
    [Feasible, Infeasible, ChainForward, ChainBackward, BadRing]
        .map(|family| TimeSet {
            name: family.name(),
            problems: drawn(seed, |random| family.words(random)),
        })
        .into()
}

fn drawn(seed: u64, words: impl Fn(&mut Random) -> Vec<i32>) -> Vec<Vec<i32>> {
    (0..SIZE).map(|problem| words(&mut Random::of_problem(seed, problem))).collect()
}

impl LimitSet {
    fn new(name: String, problems: Vec<Vec<i32>>) -> LimitSet {
        let answer = |words: &Vec<i32>| {
            let mut out = [0; ANSWER];
            assert_eq!(plain::solve(words, &mut out), 0);
            out
        };
        let answers = problems.iter().map(answer).collect();
        LimitSet { name, problems, answers }
    }

    /// The mean number of pivots, and how many of 100 have each verdict.
    pub fn pivots(&self) -> String {
        let pivots: i64 = self.answers.iter().map(|answer| answer[1]).sum();
        let share = |verdict| {
            let count = self.answers.iter().filter(|answer| answer[0] == verdict).count();
            100 * count / self.answers.len()
        };
        let mean = pivots as f64 / self.answers.len() as f64;
        format!("{mean:8.1}   {} / {} / {}", share(1), share(2), share(3))
    }
}
