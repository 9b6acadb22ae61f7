//! The definitions against the worked cases, the published problems and
//! `reference`.

use problems::published::published;
use problems::random::seed;
use problems::worked;
use transcript::comparison::compare;
use transcript::evidence::checked;
use transcript::problem::refusal;
use transcript::run::{answer, choose};

fn wide<T: Copy + Into<i128>>(words: &[T]) -> Vec<i128> {
    words.iter().map(|&word| word.into()).collect()
}

#[test]
fn worked_cases_and_the_published_problems() {
    for case in worked::limits().into_iter().chain(published()) {
        let (words, expected) = (wide(&case.words), wide(&case.answer));
        assert_eq!(refusal(&words, expected.len()), 0, "{}", case.name);
        assert_eq!(refusal(&words, expected.len() - 1), 7, "{}", case.name);
        assert_eq!(answer(&words), expected, "{}", case.name);
        let accepted = if expected[0] == 3 { 9 } else { 8 };
        assert_eq!(checked(&words, &expected), accepted, "{}", case.name);
    }
}

#[test]
fn case_i_is_refused() {
    let case = worked::case_i();
    assert_eq!(refusal(&wide(&case.words), 7), case.number);
    assert_eq!(checked(&wide(&case.words), &[2, 0, 0, 0, 1, 0, 0]), case.number);
}

#[test]
fn bad_kinds_are_refused() {
    for case in worked::bad_kinds() {
        assert_eq!(refusal(&wide(&case.words), 5), case.number, "{}", case.name);
        assert_eq!(checked(&wide(&case.words), &[1, 0, 1, 0, 0]), case.number, "{}", case.name);
    }
}

#[test]
fn the_ways_to_choose() {
    assert_eq!(choose(24, 8), 735_471);
    assert_eq!(choose(5, 0), 1);
    assert_eq!(choose(0, 3), 0);
    assert_eq!(choose(4, 4), 1);
}

#[test]
fn random_problems() {
    const PROBLEMS: u64 = 12_100;
    let seed = seed();
    println!("SEED={seed}");
    let shares = compare(seed, PROBLEMS).unwrap_or_else(|difference| panic!("{difference}"));
    println!("{PROBLEMS} problems: {:?}", shares.outcomes);
    println!("checks: {:?}, violations: {}", shares.checks, shares.violations);
    println!("met with one limit less: {}", shares.met_again);
    assert!(shares.violations > PROBLEMS, "SEED={seed}");
    for (what, least) in [("can", 20), ("cannot", 20), ("range", 1)] {
        assert!(shares.outcomes[what] >= PROBLEMS * least / 100, "{what}, SEED={seed}");
    }
    assert!(shares.met_again > shares.outcomes["cannot"] * 9 / 10, "SEED={seed}");
    for number in 1..=10 {
        assert!(shares.checks[&number] > 0, "check {number}, SEED={seed}");
    }
}
