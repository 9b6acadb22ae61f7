//! `plain` against `reference`: the worked cases and random problems of every
//! family, every word of the output compared.

use problems::evidence::bent;
use problems::published::published;
use problems::random::{seed, Random};
use problems::{limits, times, worked};
use std::collections::BTreeMap;

const PROBLEMS: u64 = 33_000;
const TIME_PROBLEMS: u64 = 9_000;

/// The number and the output of a function that is lent words of a pattern.
fn lent(function: fn(&[i32], &mut [i64]) -> u32, words: &[i32], length: usize) -> (u32, Vec<i64>) {
    let mut out: Vec<i64> = (0..length).map(|place| -1_000 - place as i64).collect();
    let number = function(words, &mut out);
    (number, out)
}

#[test]
fn worked_cases_and_the_published_problems() {
    for case in worked::limits().into_iter().chain(published()) {
        let (number, out) = lent(plain::solve, &case.words, case.answer.len());
        assert_eq!((number, out), (0, case.answer.clone()), "{}", case.name);
        let accepted = if case.answer[0] == 3 { 9 } else { 8 };
        assert_eq!(plain::check(&case.words, &case.answer), accepted, "{}", case.name);
    }
}

#[test]
fn case_i_is_refused() {
    let case = worked::case_i();
    let kept = (0..7).map(|place| -1_000 - place).collect();
    assert_eq!(lent(plain::solve, &case.words, 7), (case.number, kept));
    assert_eq!(plain::check(&case.words, &[2, 0, 0, 0, 1, 0, 0]), case.number);
}

#[test]
fn bad_kinds_are_refused() {
    let kept: Vec<i64> = (0..5).map(|place| -1_000 - place).collect();
    for case in worked::bad_kinds() {
        assert_eq!(
            lent(plain::solve, &case.words, 5),
            (case.number, kept.clone()),
            "{}",
            case.name
        );
        assert_eq!(plain::check(&case.words, &[1, 0, 1, 0, 0]), case.number, "{}", case.name);
    }
}

#[test]
fn cases_j_to_l() {
    for case in worked::times() {
        let (number, out) = lent(plain::times, &case.words, 2 + 2 * case.words[0] as usize);
        assert!(number == 0 && case.answer.is(&out), "{}: {out:?}", case.name);
    }
}

#[test]
fn random_limit_problems() {
    let seed = seed();
    println!("SEED={seed}");
    let mut verdicts: BTreeMap<(u32, i64), u64> = BTreeMap::new();
    for problem in 0..PROBLEMS {
        let mut random = Random::of_problem(seed, problem);
        let family = limits::Family::ALL[problem as usize % limits::Family::ALL.len()];
        let words = family.words(&mut random);
        let length = if random.percent(95) { random.size(67, 76) } else { random.size(0, 67) };
        let expected = lent(reference::solve, &words, length);
        let solved = lent(plain::solve, &words, length);
        assert_eq!(solved, expected, "SEED={seed}, problem {problem}, {family:?}");
        let (number, answer) = expected;
        let verdict = if number == 0 { answer[0] } else { 0 };
        *verdicts.entry((number, verdict)).or_default() += 1;
        compare_checks(&mut random, &words, number, &answer);
    }
    println!("(refusal, verdict): {verdicts:?}");
    for verdict in [1, 2, 3] {
        assert!(verdicts[&(0, verdict)] > PROBLEMS / 100, "SEED={seed}");
    }
}

fn compare_checks(random: &mut Random, words: &[i32], number: u32, answer: &[i64]) {
    if number == 0 {
        let accepted = if answer[0] == 3 { 9 } else { 8 };
        assert_eq!(plain::check(words, answer), accepted, "{words:?}");
        let length = 3 + 2 * (words[0] + words[1]) as usize;
        let bent = bent(random, words, &answer[..length]);
        assert_eq!(plain::check(words, &bent), reference::check(words, &bent), "{words:?}");
    } else {
        assert_eq!(plain::check(words, answer), number, "{words:?}");
    }
}

#[test]
fn random_time_rows() {
    let seed = seed();
    println!("SEED={seed}");
    let mut verdicts: BTreeMap<(u32, i64), u64> = BTreeMap::new();
    for problem in 0..TIME_PROBLEMS {
        let mut random = Random::of_problem(seed, problem);
        let family = times::Family::ALL[problem as usize % times::Family::ALL.len()];
        let words = family.words(&mut random);
        let length = if random.percent(95) { random.size(130, 134) } else { random.size(0, 130) };
        let before: Vec<i64> = (0..length).map(|place| -1_000 - place as i64).collect();
        let (number, after) = lent(plain::times, &words, length);
        let right = reference::times_is_right(&words, &before, &after, number);
        assert!(right, "SEED={seed}, problem {problem}, {family:?}");
        let verdict = if number == 0 { after[0] } else { 0 };
        *verdicts.entry((number, verdict)).or_default() += 1;
    }
    println!("(refusal, verdict): {verdicts:?}");
    for verdict in [1, 2] {
        assert!(verdicts[&(0, verdict)] > TIME_PROBLEMS / 10, "SEED={seed}");
    }
}
