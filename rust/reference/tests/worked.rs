//! The worked cases and the published problems, word for word.

use problems::published::published;
use problems::worked;
use reference::{check, solve, times, times_is_right};

const UNTOUCHED: i64 = -77;

/// The answer in an output that is longer than needed.
fn solved(words: &[i32], length: usize) -> Vec<i64> {
    let mut out = vec![UNTOUCHED; length + 5];
    assert_eq!(solve(words, &mut out), 0);
    assert_eq!(out[length..], [UNTOUCHED; 5]);
    out.truncate(length);
    out
}

#[test]
fn cases_a_to_h_those_with_strict_limits_and_the_published_problems() {
    let cases: Vec<_> = worked::limits().into_iter().chain(published()).collect();
    assert_eq!(cases.len(), 8 + 5 + 6);
    for case in cases {
        assert_eq!(solved(&case.words, case.answer.len()), case.answer, "{}", case.name);
        let accepted = if case.answer[0] == 3 { 9 } else { 8 };
        assert_eq!(check(&case.words, &case.answer), accepted, "{}", case.name);
    }
}

#[test]
fn case_i_is_refused() {
    let case = worked::case_i();
    let mut out = [UNTOUCHED; 7];
    assert_eq!(solve(&case.words, &mut out), case.number);
    assert_eq!(out, [UNTOUCHED; 7]);
    assert_eq!(check(&case.words, &[2, 0, 0, 0, 1, 0, 0]), case.number);
}

#[test]
fn bad_kinds_are_refused() {
    for case in worked::bad_kinds() {
        let mut out = [UNTOUCHED; 5];
        assert_eq!(solve(&case.words, &mut out), case.number, "{}", case.name);
        assert_eq!(out, [UNTOUCHED; 5]);
    }
}

#[test]
fn cases_j_to_l() {
    for case in worked::times() {
        let length = 2 + 2 * case.words[0] as usize;
        let before = vec![UNTOUCHED; length + 3];
        let mut after = before.clone();
        assert_eq!(times(&case.words, &mut after), 0);
        assert!(case.answer.is(&after[..length]), "{}: {after:?}", case.name);
        assert_eq!(after[length..], [UNTOUCHED; 3]);
        assert!(times_is_right(&case.words, &before, &after, 0), "{}", case.name);
    }
}
