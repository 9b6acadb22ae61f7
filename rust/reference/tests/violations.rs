//! The first violation of each step: which variable, on which side, and by how
//! much over D.

use problems::draft::{at_least, at_most, between, Draft, FREE};
use problems::worked;
use reference::{first_violation, violations, Session, Violation};

fn below(variable: usize, shortfall: i128, over: i128) -> Violation {
    Violation { variable, below: true, over, shortfall: (shortfall, 0) }
}

fn above(variable: usize, shortfall: i128, over: i128) -> Violation {
    Violation { variable, below: false, over, shortfall: (shortfall, 0) }
}

fn of_case(letter: &str) -> Vec<Violation> {
    let cases = worked::limits();
    violations(&cases.iter().find(|case| case.name == letter).unwrap().words)
}

#[test]
fn worked_cases() {
    assert_eq!(of_case("A"), [below(2, 2, 1), below(4, 3, 1)]);
    assert_eq!(of_case("D"), [above(2, 4, 1), below(0, 3, 1)]);
    assert_eq!(of_case("F"), [above(2, 1, 1)]);
    assert_eq!(of_case("G"), []);
    assert_eq!(of_case("H"), []);
}

/// After the pivots D is 2 and variable 3 is 1/2 too high: 1 over 2.
#[test]
fn a_shortfall_is_not_divided_by_d() {
    let rows: [&[i32]; 2] = [&[2, 1], &[1, 0]];
    let words = Draft::new(2, &rows, &[FREE, at_most(0), between(5, 5), at_most(2)]).words();
    assert_eq!(violations(&words), [below(2, 5, 1), above(3, 1, 2)]);
}

/// By a plain part and a small one, or by a small one alone.
#[test]
fn a_shortfall_has_two_parts() {
    let shortfalls = |name| -> Vec<(usize, bool, (i128, i128))> {
        let told = of_case(name).into_iter();
        told.map(|told| (told.variable, told.below, told.shortfall)).collect()
    };
    assert_eq!(shortfalls("x > 0"), []);
    assert_eq!(shortfalls("5 < x <= 5"), []);
    assert_eq!(shortfalls("x > 0, y < 3, x+y > 3"), [(2, true, (3, 0))]);
    assert_eq!(shortfalls("x <= 0, y < 3, x+y >= 3"), [(2, true, (3, 0)), (1, false, (0, 1))]);
    assert_eq!(shortfalls("0 < 2x+3y < 1, 3x-2y > 0"), [(2, true, (0, 1))]);
    let rows: [&[i32]; 2] = [&[2, 1], &[1, 0]];
    let words = Draft::new(2, &rows, &[FREE, at_most(0), [7, 5, 9], [10, 0, 2]]).words();
    let over_two = Violation { variable: 3, below: false, over: 2, shortfall: (1, 3) };
    let first = Violation { variable: 2, below: true, over: 1, shortfall: (5, 1) };
    assert_eq!(violations(&words)[..2], [first, over_two]);
}

#[test]
fn refused_words_have_no_step() {
    assert_eq!(violations(&[]), []);
    assert_eq!(violations(&worked::case_i().words), []);
}

/// Whatever the run makes of the problem: at its start, where it has a step, the
/// first violation is the first step's; limits that cross are not asked.
#[test]
fn the_first_violation_is_that_of_the_start() {
    for case in worked::limits() {
        let crossed = matches!(case.name, "G" | "5 < x <= 5");
        let first = first_violation(&case.words).unwrap();
        assert!(crossed || first == violations(&case.words).first().copied(), "{}", case.name);
    }
    let rows: [&[i32]; 1] = [&[2]];
    let crossed = Draft::new(1, &rows, &[FREE, between(3, -2)]).words();
    assert_eq!(first_violation(&crossed), Ok(Some(below(1, 3, 1))));
    assert_eq!(first_violation(&[]), Err(1));
}

/// Of a session: by the limits that are on, and over its D.
#[test]
fn a_session_shows_it_as_it_stands() {
    let rows: [&[i32]; 2] = [&[1, 1], &[-1, 2]];
    let limits = [at_most(-1), FREE, at_least(2), [5, 1, 0]];
    let session = Session::open(&Draft::new(2, &rows, &limits).words()).unwrap();
    assert_eq!(session.violation(), None);
    let session = session.switch(2, false, true).unwrap().switch(3, false, true).unwrap();
    assert_eq!(session.violation(), Some(below(2, 2, 1)));
    let session = session.check(&mut [0; 11]).1;
    assert_eq!(session.violation(), None);
    let session = session.switch(0, true, true).unwrap();
    let over_three = Violation { variable: 0, below: false, over: 3, shortfall: (6, -1) };
    assert_eq!(session.violation(), Some(over_three));
}
