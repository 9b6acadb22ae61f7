//! Sessions: those that are worked by hand, what a switch moves, and what a
//! check keeps.

use problems::draft::{at_least, at_most, Draft, FREE};
use problems::published::published;
use problems::random::Random;
use problems::sessions::{live_words, worked, Operation, Reply, Writer};
use problems::worked;
use reference::{check, idle, solve, Session};

const UNTOUCHED: i64 = -77;

fn open(words: &[i32]) -> Session {
    Session::open(words).unwrap_or_else(|number| panic!("refused {number}"))
}

fn switched(session: &Session, variable: u32, upper: bool, on: bool) -> Session {
    let next = session.switch(variable, upper, on);
    next.unwrap_or_else(|number| panic!("refused {number}"))
}

/// The answer of a check, and the session after it.
fn checked(session: &Session, variables: usize) -> (Vec<i64>, Session) {
    let mut out = vec![UNTOUCHED; 3 + 2 * variables];
    let (number, next) = session.check(&mut out);
    assert_eq!(number, 0);
    (out, next)
}

#[test]
fn worked_sessions() {
    for case in worked() {
        let variables = (case.words[0] + case.words[1]) as usize;
        let mut session = open(&case.words);
        for (place, (operation, expected)) in case.script.into_iter().enumerate() {
            let reply = match operation {
                Operation::Switch { variable, upper, on } => {
                    let next = session.switch(variable, upper, on);
                    let number = next.as_ref().err().copied().unwrap_or(0);
                    session = next.unwrap_or(session);
                    Reply::Number(number)
                }
                Operation::Check => {
                    let live = live_words(&case.words, |v, upper| session.is_on(v, upper));
                    let (answer, next) = checked(&session, variables);
                    assert_eq!(check(&live, &answer), 8, "{}, {place}", case.name);
                    session = next;
                    Reply::Answer(answer)
                }
            };
            assert_eq!(reply, expected, "{}, {place}", case.name);
        }
    }
}

#[test]
fn every_problem_variable_opens_at_0() {
    let words = [1, 0, 3, 2, 5];
    let session = open(&words);
    assert_eq!(session.values(), (1, vec![0], vec![0]));
    assert_eq!(checked(&session, 1).0, [1, 0, 1, 0, 0]);
    let session = switched(&session, 0, false, true);
    assert_eq!(session.values(), (1, vec![2], vec![0]));
    let session = switched(&session, 0, false, false);
    assert_eq!(session.values(), (1, vec![2], vec![0]), "off moves nothing back");
}

#[test]
fn no_value_moves_while_limits_conflict() {
    let session = open(&[1, 0, 3, 3, 1]);
    let both = switched(&switched(&session, 0, true, true), 0, false, true);
    assert_eq!(both.values(), (1, vec![0], vec![0]));
    assert_eq!(switched(&both, 0, true, false).values().1, [3], "a conflict ends");
    assert_eq!(switched(&both, 0, false, false).values().1, [0]);
    let other = switched(&switched(&session, 0, false, true), 0, true, true);
    assert_eq!(other.values().1, [3]);
    assert_eq!(switched(&other, 0, false, false).values().1, [1]);
}

#[test]
fn a_conflict_of_the_lowest_variable_is_told_without_pivots() {
    let rows: [&[i32]; 2] = [&[1, 1], &[1, -1]];
    let words = Draft::new(2, &rows, &[at_least(1), FREE, [3, 4, 2], [3, 9, 8]]).words();
    let mut session = open(&words);
    for (variable, upper) in [(3, true), (3, false), (0, false), (2, false), (2, true)] {
        session = switched(&session, variable, upper, true);
    }
    assert!(session.is_crossed());
    let values = session.values();
    let (answer, after) = checked(&session, 4);
    assert_eq!(answer, [2, 0, 0, 0, 0, 1, 0, 0, 0, 1, 0]);
    assert_eq!(after.values(), values);
    let (answer, _) = checked(&switched(&session, 2, true, false), 4);
    assert_eq!(answer, [2, 0, 0, 0, 0, 0, 1, 0, 0, 0, 1]);
}

#[test]
fn all_limits_on_at_the_start_values_is_the_run_itself() {
    for case in worked::limits().into_iter().chain(published()) {
        let variables = (case.words[0] + case.words[1]) as usize;
        let mut session = open(&case.words);
        for variable in 0..variables {
            for upper in [false, true] {
                session = session.switch(variable as u32, upper, true).unwrap_or(session);
            }
        }
        if !session.is_crossed() {
            assert_eq!(checked(&session, variables).0, case.answer, "{}", case.name);
        }
    }
}

#[test]
fn a_check_keeps_the_last_completed_tableau() {
    let mut ranges = 0;
    for case in published().into_iter().filter(|case| case.answer[0] == 3) {
        let variables = (case.words[0] + case.words[1]) as usize;
        let mut session = open(&case.words);
        for (variable, upper) in (0..variables as u32).flat_map(|v| [(v, false), (v, true)]) {
            session = session.switch(variable, upper, true).unwrap_or(session);
        }
        let (_, after) = checked(&session, variables);
        let (again, last) = checked(&after, variables);
        assert_eq!(again[..2], [3, 0], "{}", case.name);
        assert_eq!(last.values(), after.values(), "{}", case.name);
        ranges += 1;
    }
    assert!(ranges > 0);
}

#[test]
fn a_short_output_changes_nothing() {
    let words = Draft::new(1, &[&[2]], &[FREE, at_least(5)]).words();
    let session = switched(&open(&words), 1, false, true);
    let mut out = vec![UNTOUCHED; 6];
    let (number, after) = session.check(&mut out);
    assert_eq!((number, out), (7, vec![UNTOUCHED; 6]));
    assert_eq!(after.values(), session.values());
    assert_eq!(checked(&after, 2).0, [1, 1, 2, 5, 10, 0, 0]);
}

#[test]
fn refusals_in_order() {
    let session = open(&Draft::new(1, &[&[1]], &[at_most(3), FREE]).words());
    let refusal =
        |session: &Session, variable, upper, on| session.switch(variable, upper, on).err();
    for on in [false, true] {
        assert_eq!(refusal(&session, 2, true, on), Some(41));
        assert_eq!(refusal(&session, u32::MAX, true, on), Some(41));
        assert_eq!(refusal(&session, 0, false, on), Some(42));
        assert_eq!(refusal(&session, 1, true, on), Some(42));
    }
    assert_eq!(refusal(&session, 0, true, false), Some(44));
    let session = switched(&session, 0, true, true);
    assert_eq!(refusal(&session, 0, true, true), Some(43));
    assert_eq!(refusal(&session, 0, true, false), None);
}

#[test]
fn opening_refuses_as_a_run_does() {
    let refusal = |words: &[i32]| Session::open(words).err();
    assert_eq!(refusal(&[1]), Some(1));
    assert_eq!(refusal(&[9, 0]), Some(2));
    assert_eq!(refusal(&worked::case_i().words), Some(10));
    for case in worked::bad_kinds() {
        assert_eq!(refusal(&case.words), Some(5), "{}", case.name);
    }
}

/// However a session came to its limits, its verdict is that of a run over them
/// from the start, if neither is out of range.
#[test]
fn a_check_decides_as_a_run_over_the_live_limits_does() {
    use problems::limits::Family;
    let mut compared = 0;
    for problem in 0..600 {
        let mut random = Random::of_problem(5, problem);
        let words = random.pick(&Family::ACCEPTED).words(&mut random);
        let variables = (words[0] + words[1]) as usize;
        let mut session = open(&words);
        for operation in Writer::new(&words).script(&mut random) {
            if let Operation::Switch { variable, upper, on } = operation {
                session = session.switch(variable, upper, on).unwrap_or(session);
                continue;
            }
            let live = live_words(&words, |v, upper| session.is_on(v, upper));
            let (answer, next) = checked(&session, variables);
            session = next;
            let mut anew = vec![0; answer.len()];
            assert_eq!(solve(&live, &mut anew), 0);
            if answer[0] != 3 {
                assert_eq!(check(&live, &answer), 8, "{words:?}");
                assert!(anew[0] == 3 || anew[0] == answer[0], "{words:?}");
                compared += 1;
            }
            if answer[0] == 2 {
                assert_eq!(idle(&live, &answer), None, "{words:?}");
            }
        }
    }
    assert!(compared > 4_000, "{compared}");
}
