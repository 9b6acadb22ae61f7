//! The run in slices: case A by 0, 1, 0, 1 and 5 pivots, and every worked and
//! published problem cut everywhere.

use problems::published::published;
use problems::worked;
use reference::Slice;

const UNTOUCHED: i64 = -77;

/// What each continue hands back: the answer's words or none, and the pivots
/// that are completed then.
fn replies(words: &[i32], length: usize, numbers: &[u64]) -> Vec<(Option<Vec<i64>>, u64)> {
    let mut slice = Slice::start(words).expect("the words are a problem");
    let mut replies = Vec::new();
    for &pivots in numbers {
        let mut out = vec![UNTOUCHED; length];
        let next = slice.go_on(pivots, &mut out);
        assert_eq!(next.number, 0);
        if !next.answered {
            assert_eq!(out, vec![UNTOUCHED; length]);
        }
        replies.push((next.answered.then_some(out), next.slice.pivots()));
        slice = next.slice;
    }
    replies
}

#[test]
fn case_a_by_0_1_0_1_5() {
    let case = &worked::limits()[0];
    let answer = Some(case.answer.clone());
    let expected = [(None, 0), (None, 1), (None, 1), (answer.clone(), 2), (answer, 2)];
    assert_eq!(replies(&case.words, case.answer.len(), &[0, 1, 0, 1, 5]), expected);
}

#[test]
fn every_problem_cut_everywhere() {
    for case in worked::limits().into_iter().chain(published()) {
        let count = case.answer[1] as u64;
        for first in 0..=count + 1 {
            let found = replies(&case.words, case.answer.len(), &[first, u64::MAX, 0]);
            let early = (first >= count).then(|| case.answer.clone());
            let whole = (Some(case.answer.clone()), count);
            let expected = [(early, first.min(count)), whole.clone(), whole];
            assert_eq!(found, expected, "{} after {first}", case.name);
        }
    }
}

#[test]
fn a_short_output_changes_nothing() {
    let case = &worked::limits()[0];
    let slice = Slice::start(&case.words).expect("the words are a problem");
    let mut out = vec![UNTOUCHED; case.answer.len() - 1];
    let next = slice.go_on(5, &mut out);
    assert_eq!((next.number, next.answered, next.slice.pivots()), (7, false, 0));
    assert_eq!(out, vec![UNTOUCHED; case.answer.len() - 1]);
}

#[test]
fn a_start_refuses_as_a_run_does() {
    let refusal = |words: &[i32]| Slice::start(words).err();
    assert_eq!(refusal(&[1]), Some(1));
    assert_eq!(refusal(&[9, 0]), Some(2));
    assert_eq!(refusal(&worked::case_i().words), Some(worked::case_i().number));
}
