//! What is found, beside `reference`: the run of every problem that stays in
//! range word by word, and of all others their verdict, their pivots and their
//! evidence.

use problems::limits::Family;
use problems::random::{seed, Random};
use problems::wide::{dense, largest, number, widened};
use reference::Numbers::{Highest, Lowest};
use reference::{check_wide, decided, solve};

/// How many dense problems of each size are decided. `make soak` has 10,000.
const DENSE: u64 = 300;

/// What became of a problem: the verdict, and whether its run leaves the range.
/// Fails where reference has another one, or does not accept the evidence.
fn found(words: &[i32], seed: u64) -> (i64, bool) {
    let mut narrow = [0; 67];
    assert_eq!(solve(words, &mut narrow), 0, "SEED={seed}: {words:?}");
    let found = finder::find(words).unwrap_or_else(|| panic!("SEED={seed}, undecided: {words:?}"));
    let needed = 3 + 2 * (words[0] + words[1]) as usize;
    if narrow[0] != 3 {
        assert_eq!(found, widened(&narrow[..needed]), "SEED={seed}: {words:?}");
    }
    let (is_met, pivots) = decided(words, Lowest).expect("the words are not refused");
    assert_eq!(found[..2], [if is_met { 1 } else { 2 }, pivots as i64], "SEED={seed}: {words:?}");
    let other = decided(words, Highest).expect("the words are not refused");
    assert_eq!(other.0, is_met, "SEED={seed}: {words:?}");
    assert_eq!(check_wide(words, &found), 8, "SEED={seed}: {words:?}");
    (found[0], narrow[0] == 3)
}

#[test]
fn every_family() {
    let seed = seed();
    println!("SEED={seed}");
    for family in Family::ACCEPTED {
        let mut beyond = 0;
        for problem in 0..300 {
            let words = family.words(&mut Random::of_problem(seed, problem));
            beyond += u64::from(found(&words, seed).1);
        }
        println!("{}: {beyond} beyond the range", family.name());
        assert!(beyond > 15 || !matches!(family, Family::Range | Family::Edge), "SEED={seed}");
    }
}

/// None is undecided, each verdict is that of two exact runs, and of each verdict
/// there are enough beyond the range.
#[test]
fn dense_ones() {
    let seed = seed();
    println!("SEED={seed}");
    for size in [10, 100, 1_000] {
        let mut outcomes = [[0; 2]; 2];
        for problem in 0..DENSE {
            let words = dense(&mut Random::of_problem(seed, problem), size);
            let (verdict, is_beyond) = found(&words, seed);
            outcomes[verdict as usize - 1][usize::from(is_beyond)] += 1;
        }
        let [can, cannot] = outcomes;
        println!("up to {size}: can {can:?}, cannot {cannot:?}, in range and beyond it");
        assert!(can[1] > DENSE / 10 && cannot[1] > DENSE / 40, "{outcomes:?}, SEED={seed}");
    }
}

/// Determinants as large as they get: no number of evidence has more than 111
/// bits, with its sign. Of 150 problems one seed in eight has none of 100 bits, so
/// it is a thousand.
#[test]
fn the_largest_numbers() {
    let seed = seed();
    println!("SEED={seed}");
    let mut most = 0;
    for problem in 0..1_000 {
        let words = largest(&mut Random::of_problem(seed, problem));
        found(&words, seed);
        let evidence = finder::find(&words).expect("it is decided");
        let bits = |limbs: &[i64]| 128 - number(limbs).unsigned_abs().leading_zeros();
        most = most.max(evidence[2..].chunks(4).map(bits).max().unwrap_or(0));
    }
    println!("at most {most} bits");
    assert!((100..=110).contains(&most), "{most} bits, SEED={seed}");
}

#[test]
fn words_that_are_no_problem() {
    for words in [&[][..], &[1], &[0, 0], &[1, -1], &[1, 1, 5], &[2, 0, 0, 0, 0]] {
        assert_eq!(finder::find(words), None);
    }
}
