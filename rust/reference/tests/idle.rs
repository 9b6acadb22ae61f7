//! Nothing is idle in a "cannot": keep the limits that it names, drop any one of
//! them, and fractions meet the rest. And the decision that says so, which has
//! no range, beside the run.

use problems::draft::{above, at_least, at_most, below, between, Draft, FREE};
use problems::limits::Family;
use problems::published::published;
use problems::random::{seed, Random};
use problems::worked;
use reference::{can_be_met, idle, named, solve, Named};

fn answer(words: &[i32]) -> Vec<i64> {
    let mut out = vec![0; 3 + 2 * (words[0] + words[1]) as usize];
    assert_eq!(solve(words, &mut out), 0);
    out
}

#[test]
fn worked_cases_and_published_problems() {
    let mut told = 0;
    for case in worked::limits().into_iter().chain(published()) {
        match case.answer[0] {
            1 => assert!(can_be_met(&case.words), "{}", case.name),
            2 => {
                told += 1;
                assert!(!can_be_met(&case.words), "{}", case.name);
                assert_eq!(idle(&case.words, &case.answer), None, "{}", case.name);
            }
            _ => {}
        }
    }
    assert_eq!(told, 6);
}

/// Case F with a fourth limit: y has an upper one too, and counts twice below.
#[test]
fn a_limit_that_is_named_for_nothing_is_found() {
    let limits = [at_least(2), between(2, 9), at_most(3)];
    let words = Draft::new(2, &[&[1, 1]], &limits).words();
    assert_eq!(idle(&words, &answer(&words)), None);
    let told = [2, 0, 0, 1, 2, 0, 0, 1, 1];
    assert_eq!(idle(&words, &told), Some(Named { variable: 1, lower: false }));
    let all = [(0, true), (1, true), (1, false), (2, false)];
    assert_eq!(named(&words, &told), all.map(|(variable, lower)| Named { variable, lower }));
}

/// Two contradictions at once: each is enough without the other.
#[test]
fn two_contradictions_are_one_too_many() {
    let rows: [&[i32]; 2] = [&[1], &[1]];
    let words = Draft::new(1, &rows, &[at_least(5), at_most(1), at_most(2)]).words();
    assert_eq!(idle(&words, &answer(&words)), None);
    let told = [2, 0, 0, 2, 0, 0, 0, 1, 1];
    assert_eq!(reference::check(&words, &told), 8);
    assert_eq!(idle(&words, &told), Some(Named { variable: 1, lower: false }));
}

#[test]
fn a_strict_limit_is_needed_where_the_total_is_0() {
    let words = Draft::new(2, &[&[1, 1]], &[at_least(2), above(2), below(4)]).words();
    assert_eq!(answer(&words)[0], 2);
    assert_eq!(idle(&words, &answer(&words)), None);
    let crossed = Draft::new(1, &[&[3]], &[FREE, [7, 5, 5]]).words();
    assert_eq!(idle(&crossed, &answer(&crossed)), None);
}

/// The run of the third problem goes out of range, and fractions meet it.
#[test]
fn the_decision_has_no_range() {
    let out_of_range: Vec<_> = published().into_iter().filter(|case| case.answer[0] == 3).collect();
    assert_eq!(out_of_range.len(), 1);
    assert!(can_be_met(&out_of_range[0].words));
    assert!(!can_be_met(&[]));
    assert!(!can_be_met(&worked::case_i().words));
}

/// Every "cannot" of the families, start conflicts and strict limits among them.
#[test]
fn random_problems() {
    const PROBLEMS: u64 = 9_000;
    let seed = seed();
    println!("SEED={seed}");
    let [mut cannot, mut dropped, mut conflicts, mut strict, mut met] = [0; 5];
    for problem in 0..PROBLEMS {
        let mut random = Random::of_problem(seed, problem);
        let family = Family::ACCEPTED[problem as usize % Family::ACCEPTED.len()];
        let words = family.words(&mut random);
        let out = answer(&words);
        let is_met = can_be_met(&words);
        let about = format!("SEED={seed}, problem {problem}, {family:?}");
        match out[0] {
            1 => assert!(is_met, "{about}"),
            2 => {
                assert!(!is_met, "{about}");
                assert_eq!(idle(&words, &out), None, "{about}");
                let named = named(&words, &out);
                cannot += 1;
                dropped += named.len();
                conflicts +=
                    usize::from(named.len() == 2 && named[0].variable == named[1].variable);
                let first = 2 + (words[0] * words[1]) as usize;
                let kind = |named: &Named| words[first + 3 * named.variable];
                strict += usize::from(named.iter().any(|named| kind(named) > 3));
            }
            _ => met += usize::from(is_met),
        }
    }
    println!(
        "{cannot} cannot, {dropped} limits dropped, {conflicts} start conflicts, {strict} strict"
    );
    println!("{met} that fractions meet out of range");
    assert!(cannot > 2_500 && conflicts > 200 && strict > 200 && met > 20, "SEED={seed}");
}
