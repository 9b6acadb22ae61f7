//! Problems by names: their words are those of the same problem by numbers, and a
//! step that is wrong changes nothing.

use problems::limits::Family;
use problems::random::{seed, Random};
use scatterflock::{BuildError, Limit, Problem, Side, Verdict};
use std::ops::Bound;

const NAMES: [&str; 8] = ["zone1", "zone2", "zone3", "inlet", "outlet", "heater", "board", "fan"];

fn end(limit: Option<Limit>) -> Bound<i32> {
    match limit {
        None => Bound::Unbounded,
        Some(Limit { number, is_strict: false }) => Bound::Included(number),
        Some(Limit { number, is_strict: true }) => Bound::Excluded(number),
    }
}

/// Adds a row by numbers, and its limits.
fn by_numbers(problem: &mut Problem, row: &[i32], limits: [Option<Limit>; 2]) -> usize {
    let variable = problem.add_row(row).unwrap();
    for (side, limit) in limits.into_iter().enumerate() {
        let Some(Limit { number, is_strict }) = limit else { continue };
        let with = problem.clone();
        let limited = match (side, is_strict) {
            (0, false) => with.at_least(variable, number),
            (0, true) => with.above(variable, number),
            (_, false) => with.at_most(variable, number),
            (_, true) => with.below(variable, number),
        };
        *problem = limited.unwrap();
    }
    variable
}

/// The same problem by names, the limits of single names first and from the last one
/// on.
fn by_names(given: &Problem) -> Problem {
    let n = given.variables();
    let mut problem = Problem::named(&NAMES[..n]).unwrap();
    for variable in (0..n).rev() {
        let [lower, upper] = given.limits(variable).map(end);
        let done = problem.limit(&[(NAMES[variable], 1)], (lower, upper));
        let is_free = given.limits(variable) == [None; 2];
        assert_eq!(done, if is_free { Err(BuildError::Unlimited) } else { Ok(variable) });
    }
    for (place, row) in given.rows().iter().enumerate() {
        let limits = given.limits(n + place);
        let named = NAMES.into_iter().zip(row.iter().copied()).rev();
        let mut sum: Vec<(&str, i32)> = named.filter(|term| term.1 != 0).collect();
        // A name that is taken once and alone is the variable, not a row: another one
        // beside it, taken 0 times, makes it one.
        let other = NAMES[..n].iter().find(|name| sum[0].0 != **name);
        let is_alone = matches!(sum[..], [(_, 1)]);
        sum.extend(other.filter(|_| is_alone).map(|other| (*other, 0)));
        let done = match limits == [None; 2] || matches!(sum[..], [(_, 1)]) {
            true => by_numbers(&mut problem, row, limits),
            false => problem.limit(&sum, (end(limits[0]), end(limits[1]))).unwrap(),
        };
        assert_eq!(done, n + place);
    }
    problem
}

#[test]
fn names_and_numbers_are_the_same_problem() {
    let seed = seed();
    println!("SEED={seed}");
    let mut met = 0;
    for number in 0..2_000 {
        let mut random = Random::of_problem(seed, number);
        let family = Family::ALL[random.below(Family::ALL.len())];
        let Ok(given) = Problem::from_words(&family.words(&mut random)) else { continue };
        let named = by_names(&given);
        assert_eq!(named.words(), given.words(), "SEED={seed}");
        assert_eq!(named.names(), &NAMES[..given.variables()]);
        met += 1;
    }
    assert!(met > 500, "{met} problems");
}

#[test]
fn a_problem_has_its_session_and_its_slice() {
    let seed = seed();
    println!("SEED={seed}");
    let mut verdicts = [0; 3];
    for number in 0..2_000 {
        let mut random = Random::of_problem(seed, number);
        let family = Family::ALL[random.below(Family::ALL.len())];
        let Ok(problem) = Problem::from_words(&family.words(&mut random)) else { continue };
        let answer = problem.solve();
        let mut slice = problem.slice();
        assert_eq!(slice.go_on(usize::MAX), Some(answer.clone()), "SEED={seed}");
        let mut session = problem.session();
        session.switch_all_on();
        assert_eq!(session.live_words(), problem.words(), "SEED={seed}");
        // A second time there is nothing left to switch.
        session.switch_all_on();
        let verdict = |verdict: &Verdict| match verdict {
            Verdict::Can { .. } => 0,
            Verdict::Cannot { .. } => 1,
            _ => 2,
        };
        let [alone, checked] = [&answer, &session.check()].map(|answer| verdict(&answer.verdict));
        assert!(alone == checked || alone == 2 || checked == 2, "SEED={seed}");
        verdicts[alone] += 1;
    }
    assert!(verdicts[0] > 100 && verdicts[1] > 100, "{verdicts:?}");
}

#[test]
fn a_wrong_step_changes_nothing() {
    let built = || {
        let mut oven = Problem::named(&["zone1", "zone2"]).unwrap();
        oven.limit(&[("zone1", 1)], 20..=60).unwrap();
        oven.limit(&[("zone1", 1), ("zone2", 1)], ..200).unwrap();
        oven
    };
    let mut oven = built();
    assert_eq!(oven.limits(2)[1], Some(Limit { number: 200, is_strict: true }));
    let name = |name: &str| name.to_string();
    for (sum, (lower, upper), error) in [
        (&[("zon1", 1)][..], (None, Some(3)), BuildError::NoName(name("zon1"))),
        (&[("zone1", 1), ("zone1", 2)], (None, Some(3)), BuildError::NameTwice(name("zone1"))),
        (&[("zone1", 1)], (Some(20), None), BuildError::LimitTwice(0)),
        (&[("zone2", 1)], (Some(20), Some(30_001)), BuildError::Limit(30_001)),
        (&[("zone2", 1), ("zone1", -1)], (Some(-30_001), Some(0)), BuildError::Limit(-30_001)),
        (&[("zone2", 1), ("zone1", -1)], (None, None), BuildError::Unlimited),
        (&[("zone2", 1)], (None, None), BuildError::Unlimited),
        (&[("zone2", 1_001)], (None, Some(3)), BuildError::Coefficient(1_001)),
        (&[("zone2", 0)], (None, Some(3)), BuildError::BlankRow),
        (&[], (None, Some(3)), BuildError::BlankRow),
    ] {
        let [lower, upper] =
            [lower, upper].map(|end| end.map_or(Bound::Unbounded, Bound::Included));
        assert_eq!(oven.limit(sum, (lower, upper)), Err(error.clone()), "{sum:?}");
        assert_eq!(oven, built(), "{error}");
    }
    assert_eq!(Problem::named(&["x", "x"]), Err(BuildError::NameTwice(name("x"))));
    assert_eq!(Problem::named(&[]), Err(BuildError::Variables(0)));
    let mut session = oven.session();
    assert!(session.switch_on(0, Side::Lower).is_ok());
}
