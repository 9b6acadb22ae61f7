//! Wide evidence, and evidence about time rows: random pieces of every family,
//! each word of some bent by one and put at both ends of its limb, and times at
//! both ends of 64 bits.

use differential::archive::LINKED;
use differential::{report, times, wide};
use problems::random::{seed, Random};
use problems::wide::{dense, EDGES};
use problems::worked;

const PROBLEMS: u64 = if LINKED { 8_000 } else { 2_000 };

#[test]
fn evidence_of_every_family() {
    let seed = seed();
    println!("SEED={seed}");
    let report = report::wide(seed, PROBLEMS).unwrap_or_else(|what| panic!("{what}"));
    println!("{report}");
    for outcome in ["can", "cannot"] {
        assert!(report.of(outcome) > PROBLEMS / 5, "{outcome}, SEED={seed}");
    }
    assert!(report.of("beyond the range") > PROBLEMS / 8, "SEED={seed}");
    for number in (1..=6).chain([10]) {
        assert!(report.of(&format!("refused {number}")) > 0, "{number}, SEED={seed}");
    }
    for (number, least) in [(7, PROBLEMS / 20), (8, PROBLEMS), (9, PROBLEMS)] {
        assert!(report.calls[&number] > least, "check {number}, SEED={seed}");
    }
}

/// Worked problems, and dense ones of each size.
fn pieces() -> Vec<(Vec<i32>, Vec<i64>)> {
    let worked = worked::limits().into_iter().map(|case| case.words);
    let dense = [10, 100, 1_000].map(|size| dense(&mut Random::of_problem(5, 3), size));
    let all = worked
        .chain(dense)
        .filter(|words| reference::decided(words, reference::Numbers::Lowest).is_some());
    all.map(|words| {
        let evidence = finder::find(&words).expect("it is decided");
        (words, evidence)
    })
    .collect()
}

fn compared(words: &[i32], answer: &[i64]) -> u32 {
    wide::compare_check(words, answer).unwrap_or_else(|what| panic!("{what}: {words:?}"))
}

#[test]
fn each_word_bent_by_one() {
    let mut accepted = 0;
    for (words, evidence) in pieces() {
        assert_eq!(compared(&words, &evidence), 8);
        for place in 0..evidence.len() {
            for by in [-1, 1] {
                let mut bent = evidence.clone();
                bent[place] += by;
                let number = compared(&words, &bent);
                assert!(place != 1 || number == 8, "{words:?}");
                assert!(place != 0 || number == 9, "{words:?}");
                accepted += u32::from(number == 8 && place > 1);
            }
        }
        assert_eq!(compared(&words, &evidence[..evidence.len() - 1]), 7);
        assert_eq!(compared(&words, &[&evidence[..], &[i64::MIN]].concat()), 8);
    }
    assert!(accepted > 0, "a small part or a numerator has room somewhere");
}

#[test]
fn each_word_at_the_ends_of_its_limb() {
    for (words, evidence) in pieces() {
        for place in 2..evidence.len() {
            for edge in EDGES {
                let mut bent = evidence.clone();
                bent[place] = edge;
                let number = compared(&words, &bent);
                let limb = if (place - 2) % 4 == 3 { -(1 << 31)..1 << 31 } else { 0..1 << 32 };
                assert!(limb.contains(&edge) || number == 9, "{place} {edge}: {words:?}");
            }
        }
    }
}

/// x free: any numerator is right, over any number above 0.
#[test]
fn numbers_at_both_ends() {
    let words = [1, 0, 0, 0, 0];
    let ends = [i128::MIN, i128::MIN + 1, -1, 0, 1, (1 << 96) - 1, 1 << 96, i128::MAX];
    for over in ends {
        for numerator in ends {
            for small in ends {
                let mut answer = vec![1, -5];
                answer.extend([over, numerator, small].into_iter().flat_map(problems::wide::limbs));
                assert_eq!(compared(&words, &answer), if over > 0 { 8 } else { 9 });
            }
        }
    }
}

fn timed(rows: &[i32], answer: &[i64]) -> u32 {
    times::compare_check(rows, answer).unwrap_or_else(|what| panic!("{what}"))
}

/// x - y <= 3, and the same strictly.
#[test]
fn times_at_both_ends_of_64_bits() {
    let ends = [i64::MIN, i64::MIN + 3, -4, -3, 0, 3, 4, i64::MAX - 3, i64::MAX];
    for strict in [0, 1] {
        let rows = [2, 1, 0, 1, strict, 3];
        let mut accepted = 0;
        for x in ends {
            for y in ends {
                for small in ends {
                    for other in [i64::MIN, -1, 0, 1, i64::MAX] {
                        let number = timed(&rows, &[1, 2, x, y, small, other]);
                        let apart = i128::from(x) - i128::from(y);
                        let beside = i128::from(small) - i128::from(other) <= -i128::from(strict);
                        let is_met = apart < 3 || apart == 3 && beside;
                        assert_eq!(number, if is_met { 8 } else { 9 }, "{x} {y} {small} {other}");
                        accepted += u32::from(is_met);
                    }
                }
            }
        }
        assert!(accepted > 1_000, "{accepted}");
    }
}

/// Each word of a cycle and of its zeros, bent by one and put at an edge.
#[test]
fn cycles_bent() {
    let rows = [4, 4, 0, 1, 0, 2, 1, 2, 0, -1, 2, 0, 1, -1, 0, 1, 0, 5];
    let cycle = [2, 3, 0, 1, 2, 0, 0, 0, 0, 0];
    assert_eq!(timed(&rows, &cycle), 8);
    assert_eq!(timed(&rows, &[2, 3, 2, 0, 1, 0, 0, 0, 0, 0]), 8);
    assert_eq!(timed(&rows, &[2, 3, 3, 1, 2, 0, 0, 0, 0, 0]), 9);
    assert_eq!(timed(&rows, &cycle[..9]), 17);
    for place in 0..cycle.len() {
        for edge in
            problems::times_evidence::EDGES.into_iter().chain([cycle[place] - 1, cycle[place] + 1])
        {
            let mut bent = cycle;
            bent[place] = edge;
            assert_eq!(timed(&rows, &bent) == 8, bent == cycle, "{place} {edge}");
        }
    }
}
