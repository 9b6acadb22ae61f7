//! Time rows: refusals beside what passes, special graphs, and the judge.

use problems::random::{seed, Random};
use problems::times::Family;
use problems::worked::time_words;
use reference::{times, times_is_right};

const SENTINEL: i64 = -9;

/// The number and the output of the time solver, judged on the way.
fn timed(words: &[i32], length: usize) -> (u32, Vec<i64>) {
    let before = vec![SENTINEL; length];
    let mut after = before.clone();
    let number = times(words, &mut after);
    assert!(times_is_right(words, &before, &after, number));
    (number, after)
}

fn returned(words: &[i32]) -> u32 {
    let (number, after) = timed(words, 134);
    assert_eq!(number != 0, after == vec![SENTINEL; 134]);
    number
}

fn row(row: [i32; 4]) -> u32 {
    returned(&time_words(2, &[row]))
}

#[test]
fn refusals_and_their_neighbours() {
    assert_eq!(returned(&[]), 11);
    assert_eq!(returned(&[1]), 11);
    assert_eq!(returned(&[1, 0]), 0);
    for start in [[0, 0], [65, 0], [-1, 0], [1, -1], [1, 257], [i32::MAX, i32::MIN]] {
        assert_eq!(returned(&start), 12);
    }
    assert_eq!(returned(&[64, 0]), 0);
    assert_eq!(returned(&time_words(1, &[[0, 0, 0, 0]; 256])), 0);
    assert_eq!(returned(&time_words(1, &[[0, 0, 0, 0]; 257])), 12);
    assert_eq!(returned(&[1, 0, 0]), 13);
    assert_eq!(returned(&[1, 1, 0, 0, 0]), 13);
    for vertex in [-1, 2, i32::MIN, i32::MAX] {
        assert_eq!(row([vertex, 0, 0, 0]), 14);
        assert_eq!(row([0, vertex, 0, 0]), 14);
    }
    assert_eq!(row([1, 1, 1, 30_000]), 0);
    for strict in [-1, 2, i32::MIN, i32::MAX] {
        assert_eq!(row([0, 1, strict, 0]), 15);
    }
    for length in [30_000, -30_000] {
        assert_eq!(row([0, 1, 0, length]), 0);
        assert_eq!(row([0, 1, 1, length]), 0);
    }
    for length in [30_001, -30_001, i32::MIN, i32::MAX] {
        assert_eq!(row([0, 1, 0, length]), 16);
    }
}

#[test]
fn an_earlier_refusal_wins_wherever_it_stands() {
    let rows = [[0, 1, 0, 30_001], [0, 1, 2, 0], [0, 2, 0, 0]];
    assert_eq!(returned(&time_words(2, &rows)), 14);
    assert_eq!(returned(&time_words(2, &rows[..2])), 15);
    assert_eq!(returned(&time_words(2, &rows[..1])), 16);
}

#[test]
fn a_short_output_is_refused_last_and_kept() {
    let words = time_words(3, &[[0, 0, 1, 0]]);
    for length in 0..8 {
        assert_eq!(timed(&words, length), (17, vec![SENTINEL; length]));
    }
    assert_eq!(timed(&words, 9), (0, vec![2, 1, 0, 0, 0, 0, 0, 0, SENTINEL]));
    assert_eq!(times(&time_words(3, &[[0, 0, 0, 30_001]]), &mut []), 16);
}

#[test]
fn times_are_minus_the_distance_and_never_below_zero() {
    let words = time_words(3, &[[0, 1, 0, -4], [1, 2, 1, -5], [0, 2, 0, 100]]);
    assert_eq!(timed(&words, 8), (0, vec![1, 3, 0, 4, 9, 0, 0, 1]));
}

#[test]
fn a_strict_row_is_a_small_amount_shorter() {
    let loose = time_words(2, &[[0, 1, 0, 1], [1, 0, 0, -1]]);
    assert_eq!(timed(&loose, 6), (0, vec![1, 2, 1, 0, 0, 0]));
    let strict = time_words(2, &[[0, 1, 1, 1], [1, 0, 0, -1]]);
    assert_eq!(timed(&strict, 6).1[..2], [2, 2]);
    let half = time_words(2, &[[0, 1, 1, 1], [1, 0, 1, 0]]);
    assert_eq!(timed(&half, 6), (0, vec![1, 2, 0, 0, 1, 0]));
}

/// A ring of any size whose c sum to 0: met, and with one strict row not.
#[test]
fn rings_that_sum_to_0() {
    for n in 1..=64 {
        let up = 7 * (n - 1);
        let mut rows: Vec<[i32; 4]> = (1..n).map(|to| [to - 1, to, 0, 7]).collect();
        rows.push([n - 1, 0, 0, -up]);
        let room = 2 + 2 * n as usize;
        assert_eq!(timed(&time_words(n as usize, &rows), room).1[..2], [1, n.into()]);
        for strict in 0..n as usize {
            rows[strict][2] = 1;
            assert_eq!(timed(&time_words(n as usize, &rows), room).1[..2], [2, n.into()]);
            rows[strict][2] = 0;
        }
    }
}

#[test]
fn a_path_of_the_extreme_lengths() {
    let rows: Vec<[i32; 4]> = (1..64).map(|to| [to - 1, to, 1, -30_000]).collect();
    let minutes = (0..64).map(|v| v * 30_000);
    let expected: Vec<i64> = [1, 64].into_iter().chain(minutes).chain(0..64).collect();
    let reversed: Vec<[i32; 4]> = rows.iter().rev().copied().collect();
    for rows in [rows, reversed] {
        assert_eq!(timed(&time_words(64, &rows), 130), (0, expected.clone()));
    }
}

#[test]
fn a_graph_whose_only_bad_cycle_has_64_rows() {
    let mut rows: Vec<[i32; 4]> = (0..64).map(|v| [v, (v + 1) % 64, 0, 0]).collect();
    assert_eq!(timed(&time_words(64, &rows), 130).1[..2], [1, 64]);
    rows[17][2] = 1;
    let (_, after) = timed(&time_words(64, &rows), 130);
    assert_eq!(after[..2], [2, 64]);
    assert_eq!(after[66..], [0; 64]);
    let mut listed = after[2..66].to_vec();
    listed.sort_unstable();
    assert_eq!(listed, (0..64).collect::<Vec<i64>>());
}

/// Small amounts to a minute: more than can add up here.
const UNIT: i64 = 1_000_000;

/// Distances by a method that has nothing in common with rounds: the least
/// length over all pairs, one vertex after another let in between. Lengths are
/// numbers, a minute being so many small amounts.
fn times_by_pairs(words: &[i32]) -> Option<Vec<i64>> {
    let n = words[0] as usize;
    let mut least = vec![vec![i64::MAX / 4; n]; n];
    for row in words[2..].chunks(4) {
        let (x, y) = (row[0] as usize, row[1] as usize);
        least[x][y] = least[x][y].min(UNIT * i64::from(row[3]) - i64::from(row[2]));
    }
    for between in 0..n {
        for x in 0..n {
            for y in 0..n {
                let through = least[x][between] + least[between][y];
                least[x][y] = least[x][y].min(through.max(-(1 << 55)));
            }
        }
    }
    let bad = (0..n).any(|v| least[v][v] < 0);
    let time = |v: usize| -(0..n).map(|from| least[from][v]).min().unwrap_or(0).min(0);
    let minutes = (0..n).map(|v| time(v).div_euclid(UNIT));
    let small = (0..n).map(|v| time(v).rem_euclid(UNIT));
    (!bad).then(|| minutes.chain(small).collect())
}

#[test]
fn random_rows_by_another_method() {
    let seed = seed();
    println!("SEED={seed}");
    let (mut feasible, mut infeasible) = (0, 0);
    for problem in 0..1_400 {
        let mut random = Random::of_problem(seed, problem);
        let family = Family::ACCEPTED[problem as usize % Family::ACCEPTED.len()];
        let words = family.words(&mut random);
        let n = words[0] as usize;
        let (number, after) = timed(&words, 2 * n + 2);
        assert_eq!(number, 0, "SEED={seed}, problem {problem}");
        match times_by_pairs(&words) {
            Some(times) => {
                feasible += 1;
                assert_eq!(after[2..], times, "SEED={seed}, problem {problem}");
            }
            None => {
                infeasible += 1;
                assert_eq!(after[0], 2, "SEED={seed}, problem {problem}");
            }
        }
    }
    println!("{feasible} feasible, {infeasible} infeasible");
    assert!(feasible > 300 && infeasible > 300);
}

/// 0 to 1 to 2 to 0 sums to -1, by rows 1, 2 and 3; row 0 is a longer way.
fn judged(start: [i64; 6], returned: u32) -> bool {
    let after = match start[5] {
        SENTINEL if returned != 17 => [&start[..5], &[0, 0, 0, SENTINEL]].concat(),
        last => [&start[..5], &[last; 4]].concat(),
    };
    let rows = [[0, 1, 0, 9], [0, 1, 0, 1], [1, 2, 0, 1], [2, 0, 1, -2], [2, 2, 0, 0]];
    times_is_right(&time_words(3, &rows), &[SENTINEL; 9], &after, returned)
}

#[test]
fn the_judge_allows_every_turn_of_the_cycle_and_nothing_else() {
    for cycle in [[1, 2, 3], [2, 3, 1], [3, 1, 2]] {
        let [a, b, c] = cycle;
        assert!(judged([2, 3, a, b, c, SENTINEL], 0));
    }
    let wrong = [
        [2, 3, 0, 2, 3, SENTINEL],
        [2, 3, 2, 1, 3, SENTINEL],
        [2, 2, 1, 2, 0, SENTINEL],
        [2, 2, 1, 2, 3, SENTINEL],
        [2, 3, 1, 2, 5, SENTINEL],
        [2, 3, 1, 2, -1, SENTINEL],
        [2, 4, 1, 2, 3, SENTINEL],
        [2, -1, 1, 2, 3, SENTINEL],
        [2, 1, 4, 0, 0, SENTINEL],
        [2, 0, 0, 0, 0, SENTINEL],
        [2, 3, 1, 2, 3, 0],
        [1, 3, 0, 0, 0, SENTINEL],
        [3, 3, 1, 2, 3, SENTINEL],
    ];
    for after in wrong {
        assert!(!judged(after, 0), "{after:?}");
    }
    assert!(!judged([2, 3, 1, 2, 3, SENTINEL], 1));
    assert!(!judged([SENTINEL; 6], 17));
}

#[test]
fn the_judge_refuses_a_repeated_start_and_words_after_the_cycle() {
    let words = time_words(3, &[[0, 0, 1, 0], [1, 1, 0, 0]]);
    let right = |after: [i64; 8]| times_is_right(&words, &[7; 8], &after, 0);
    assert!(right([2, 1, 0, 0, 0, 0, 0, 0]));
    assert!(!right([2, 2, 0, 0, 0, 0, 0, 0]));
    assert!(!right([2, 1, 0, 1, 0, 0, 0, 0]));
    assert!(!right([2, 1, 1, 0, 0, 0, 0, 0]));
    assert!(!right([2, 1, 0, 0, 0, 0, 0, 1]));
}

#[test]
fn the_judge_wants_exact_times() {
    let words = time_words(2, &[[0, 1, 0, -3]]);
    let right = |after: [i64; 7]| times_is_right(&words, &[7; 7], &after, 0);
    assert!(right([1, 2, 0, 3, 0, 0, 7]));
    let wrong = [
        [1, 2, 1, 4, 0, 0, 7],
        [1, 2, 0, 4, 0, 0, 7],
        [1, 1, 0, 3, 0, 0, 7],
        [1, 2, 0, 3, 0, 0, 0],
        [1, 2, 0, 3, 0, 1, 7],
        [1, 2, 0, 3, 7, 7, 7],
    ];
    for wrong in wrong {
        assert!(!right(wrong), "{wrong:?}");
    }
}

#[test]
fn the_judge_wants_a_refused_output_kept() {
    let words = time_words(1, &[[0, 0, 2, 0]]);
    assert!(times_is_right(&words, &[7; 5], &[7; 5], 15));
    assert!(!times_is_right(&words, &[7; 5], &[7, 7, 7, 7, 8], 15));
    assert!(!times_is_right(&words, &[7; 5], &[7; 5], 16));
    assert!(!times_is_right(&words, &[7; 5], &[7; 4], 15));
    let short = [1, 0];
    assert!(times_is_right(&short, &[7; 2], &[7; 2], 17));
    assert!(!times_is_right(&short, &[7; 2], &[7, 8], 17));
    assert!(!times_is_right(&short, &[7; 2], &[1, 1], 0));
}
