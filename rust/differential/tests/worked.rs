//! The worked cases and the published problems through the archive, in
//! outputs of every length from none to a few words more than needed.

use differential::archive;
use problems::published::published;
use problems::sessions::{self, Operation, Reply};
use problems::traces;
use problems::worked;

const KEPT: i64 = -123_456_789;

#[test]
fn case_i_and_bad_kinds_are_refused() {
    for case in worked::bad_kinds().into_iter().chain([worked::case_i()]) {
        for length in 0..10 {
            let mut out = vec![KEPT; length];
            let number = archive::solve(&case.words, &mut out);
            assert_eq!((number, out), (case.number, vec![KEPT; length]), "{}", case.name);
            let checked = archive::check(&case.words, &vec![0; length]);
            assert_eq!(checked, case.number, "{}", case.name);
        }
    }
}

#[test]
fn worked_cases_and_the_published_problems() {
    for case in worked::limits().into_iter().chain(published()) {
        let needed = case.answer.len();
        for length in 0..needed + 3 {
            let mut out = vec![KEPT; length];
            let number = archive::solve(&case.words, &mut out);
            if length < needed {
                assert_eq!((number, out), (7, vec![KEPT; length]), "{}", case.name);
            } else {
                let expected = [&case.answer[..], &vec![KEPT; length - needed]].concat();
                assert_eq!((number, out), (0, expected), "{}", case.name);
            }
        }
    }
}

#[test]
fn worked_traces() {
    for case in traces::worked() {
        let told = archive::replay(&case.words, &case.trace);
        assert_eq!((told.number, told.word, told.step), case.answer, "{:?}", case.trace);
    }
    let case_a = worked::case_a().words;
    for room in 0..9 {
        let mut trace = vec![9; room];
        let traced = archive::trace(&case_a, &mut trace);
        let (number, written) = if room < 6 { (7, 0) } else { (0, 6) };
        assert_eq!((traced.refused, traced.count), (number, written), "{room}");
        let kept = vec![9; room - written];
        assert_eq!(trace, [&traces::TRACE_A[..written], &kept].concat(), "{room}");
    }
    let mut none = [];
    assert_eq!(archive::trace(&[1], &mut none).refused, 1);
}

/// Case A at its start, words that are refused, and case A as a session, whose D is
/// 3 after its check.
#[test]
fn worked_violations() {
    let numbers = |shown: archive::Violation| {
        let variable = shown.violated.then_some((shown.variable, shown.rises));
        (shown.refused, variable, [shown.denominator, shown.shortfall, shown.small])
    };
    let case_a = worked::case_a().words;
    let first = (0, Some((2, true)), [1, 2, 0]);
    assert_eq!(numbers(archive::first_violation(&case_a)), first);
    assert_eq!(numbers(archive::first_violation(&[1])), (1, None, [0; 3]));
    let mut session = archive::session_open(&case_a).session;
    assert_eq!(numbers(archive::session_violation(session.clone())), (0, None, [0; 3]));
    for variable in [4, 2] {
        session = archive::session_switch(session, variable, false, true).session;
    }
    assert_eq!(numbers(archive::session_violation(session.clone())), first);
    session = archive::session_check(session, &mut [0; 13]).session;
    assert_eq!(numbers(archive::session_violation(session.clone())), (0, None, [0; 3]));
    let strict = [2, 2, 1, 1, -1, 2, 2, 0, -1, 0, 0, 0, 1, 2, 0, 5, 1, 0];
    session = archive::session_open(&strict).session;
    for variable in [2, 3] {
        session = archive::session_switch(session, variable, false, true).session;
    }
    session = archive::session_check(session, &mut [0; 11]).session;
    session = archive::session_switch(session, 0, true, true).session;
    let over_three = (0, Some((0, false)), [3, 6, -1]);
    assert_eq!(numbers(archive::session_violation(session)), over_three);
}

#[test]
fn case_a_by_0_1_0_1_5() {
    let case = &worked::limits()[0];
    let needed = case.answer.len();
    let mut slice = archive::slice_start(&case.words).slice;
    for (pivots, completed) in [(0, 0), (1, 1), (0, 1), (1, 2), (5, 2)] {
        let short = archive::slice_continue(slice, pivots, &mut vec![KEPT; needed - 1]);
        assert_eq!((short.refused, short.answered), (7, false));
        let mut out = vec![KEPT; needed + 1];
        let next = archive::slice_continue(short.slice, pivots, &mut out);
        assert_eq!((next.refused, next.slice.count()), (0, completed));
        let answered = completed == 2;
        let expected =
            if answered { [&case.answer[..], &[KEPT]].concat() } else { vec![KEPT; needed + 1] };
        assert_eq!((next.answered, out), (answered, expected));
        slice = next.slice;
    }
}

#[test]
fn every_problem_pivot_by_pivot() {
    for case in worked::limits().into_iter().chain(published()) {
        let mut slice = archive::slice_start(&case.words).slice;
        let mut out = vec![KEPT; case.answer.len()];
        for completed in 0..=case.answer[1] {
            let next = archive::slice_continue(slice, (completed > 0).into(), &mut out);
            assert_eq!((next.refused, next.slice.count() as i64), (0, completed), "{}", case.name);
            assert_eq!(next.answered, completed == case.answer[1], "{}", case.name);
            slice = next.slice;
        }
        assert_eq!(out, case.answer, "{}", case.name);
    }
}

#[test]
fn cases_j_to_l() {
    for case in worked::times() {
        let needed = 2 + 2 * case.words[0] as usize;
        for length in 0..needed + 3 {
            let mut out = vec![KEPT; length];
            let number = archive::times(&case.words, &mut out);
            if length < needed {
                assert_eq!((number, out), (17, vec![KEPT; length]), "{}", case.name);
            } else {
                assert!(number == 0 && case.answer.is(&out[..needed]), "{}", case.name);
                assert_eq!(out[needed..], vec![KEPT; length - needed], "{}", case.name);
            }
        }
    }
}

#[test]
fn worked_sessions() {
    for case in sessions::worked() {
        let needed = 3 + 2 * (case.words[0] + case.words[1]) as usize;
        let opened = archive::session_open(&case.words);
        assert_eq!(opened.refused, 0, "{}", case.name);
        let mut session = opened.session;
        for (place, (operation, expected)) in case.script.into_iter().enumerate() {
            let reply = match operation {
                Operation::Switch { variable, upper, on } => {
                    let next = archive::session_switch(session, variable, upper, on);
                    session = next.session;
                    Reply::Number(next.refused)
                }
                Operation::Check => {
                    let mut out = vec![KEPT; needed - 1];
                    let short = archive::session_check(session, &mut out);
                    assert_eq!((short.refused, out), (7, vec![KEPT; needed - 1]));
                    let mut out = vec![KEPT; needed + 1];
                    let next = archive::session_check(short.session, &mut out);
                    assert_eq!((next.refused, out.pop()), (0, Some(KEPT)));
                    session = next.session;
                    Reply::Answer(out)
                }
            };
            assert_eq!(reply, expected, "{}, {place}", case.name);
        }
    }
}
