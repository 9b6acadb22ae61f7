//! Problems and time rows that are built: what is refused while building is
//! what the archive refuses, and what is built it answers.

use problems::limits::Family;
use problems::random::{seed, Random};
use problems::worked::{self, TimesAnswer};
use scatterflock::sizes::{MOST_ROWS, MOST_TIME_ROWS};
use scatterflock::{
    solve, BuildError, Limit, Problem, Refusal, Schedule, Side, Time, TimeRows, Verdict,
};

#[test]
fn words_and_back() {
    let seed = seed();
    println!("SEED={seed}");
    for problem in 0..20_000 {
        let mut random = Random::of_problem(seed, problem);
        let family = Family::ALL[random.below(Family::ALL.len())];
        let words = family.words(&mut random);
        match (Problem::from_words(&words), solve(&words)) {
            (Ok(problem), Ok(answer)) => {
                assert_eq!(problem.words(), words);
                assert_eq!(problem.solve(), answer);
            }
            (Err(refusal), Err(other)) => assert_eq!(refusal, other, "{words:?}"),
            (built, answer) => panic!("{built:?}, {answer:?}: {words:?}, SEED={seed}"),
        }
    }
}

/// The problem of these words, step by step.
fn rebuilt(words: &[i32]) -> Problem {
    let given = Problem::from_words(words).unwrap();
    let mut problem = Problem::new(given.variables()).unwrap();
    for row in given.rows() {
        problem = problem.row(row).unwrap();
    }
    for variable in 0..given.variables() + given.rows().len() {
        let [lower, upper] = given.limits(variable);
        problem = match lower {
            None => problem,
            Some(Limit { number, is_strict: false }) => problem.at_least(variable, number).unwrap(),
            Some(Limit { number, is_strict: true }) => problem.above(variable, number).unwrap(),
        };
        problem = match upper {
            None => problem,
            Some(Limit { number, is_strict: false }) => problem.at_most(variable, number).unwrap(),
            Some(Limit { number, is_strict: true }) => problem.below(variable, number).unwrap(),
        };
    }
    problem
}

#[test]
fn every_kind_is_built() {
    for (problem, limits) in [
        (free(), [0, 0, 0]),
        (free().at_least(0, -7).unwrap(), [1, -7, 0]),
        (free().at_most(0, 7).unwrap(), [2, 0, 7]),
        (free().between(0, -7, 7).unwrap(), [3, -7, 7]),
        (free().above(0, -7).unwrap(), [5, -7, 0]),
        (free().above(0, -7).unwrap().at_most(0, 7).unwrap(), [7, -7, 7]),
        (free().below(0, 7).unwrap(), [10, 0, 7]),
        (free().at_least(0, -7).unwrap().below(0, 7).unwrap(), [11, -7, 7]),
        (free().above(0, -7).unwrap().below(0, 7).unwrap(), [15, -7, 7]),
    ] {
        let words = [&[1, 0], &limits[..]].concat();
        assert_eq!(problem.words(), words);
        assert_eq!(Problem::from_words(&words), Ok(problem));
    }
    for kind in [-1, 4, 6, 8, 9, 12, 13, 14, 16] {
        assert_eq!(Problem::from_words(&[1, 0, kind, 0, 0]), Err(Refusal::Kind), "{kind}");
    }
}

#[test]
fn nothing_is_named_for_nothing() {
    let seed = seed();
    println!("SEED={seed}");
    let [mut dropped, mut out_of_range] = [0; 2];
    for number in 0..20_000 {
        let mut random = Random::of_problem(seed, number);
        let family = Family::ALL[random.below(Family::ALL.len())];
        let Ok(problem) = Problem::from_words(&family.words(&mut random)) else { continue };
        let answer = problem.solve();
        let Verdict::Cannot { lower, upper } = &answer.verdict else { continue };
        for (side, multipliers) in [(Side::Lower, lower), (Side::Upper, upper)] {
            for (variable, &multiplier) in multipliers.iter().enumerate() {
                let told = problem.without(&answer, variable, side).map(|answer| answer.verdict);
                match (multiplier, told) {
                    (0, None) => {}
                    (1.., Some(Verdict::Can { .. })) => dropped += 1,
                    (1.., Some(Verdict::OutOfRange)) => out_of_range += 1,
                    (_, told) => panic!("{told:?}, SEED={seed}: {problem:?} {variable} {side:?}"),
                }
            }
        }
    }
    println!("{dropped} dropped, {out_of_range} out of range");
    assert!(dropped > 1_000 && out_of_range < dropped / 10, "{dropped} {out_of_range} SEED={seed}");
    assert_eq!(free().without(&free().solve(), 0, Side::Lower), None);
}

/// One variable, which nothing limits.
fn free() -> Problem {
    Problem::new(1).unwrap()
}

#[test]
fn the_worked_cases_step_by_step() {
    for case in worked::limits() {
        let problem = rebuilt(&case.words);
        assert_eq!(problem.words(), case.words);
        let evidence = problem.solve().evidence().unwrap();
        assert_eq!(evidence, case.answer, "{}", case.name);
    }
    for case in worked::times() {
        let mut rows = TimeRows::new(case.words[0] as usize).unwrap();
        for row in case.words[2..].chunks_exact(4) {
            let (x, y) = (row[0] as usize, row[1] as usize);
            rows = match row[2] {
                0 => rows.at_most(x, y, row[3]).unwrap(),
                _ => rows.below(x, y, row[3]).unwrap(),
            };
        }
        assert_eq!(rows.words(), case.words);
        let found = matches!(rows.solve(), Schedule::Times(_));
        assert_eq!(found, matches!(case.answer, TimesAnswer::Times { .. }), "{}", case.name);
    }
}

#[test]
fn what_cannot_be_built() {
    let problem = || Problem::new(2).unwrap();
    assert_eq!(Problem::new(0), Err(BuildError::Variables(0)));
    assert_eq!(Problem::new(9), Err(BuildError::Variables(9)));
    let given = |given| BuildError::RowLength { given, variables: 2 };
    assert_eq!(problem().row(&[1]), Err(given(1)));
    assert_eq!(problem().row(&[1, 2, 3]), Err(given(3)));
    assert_eq!(problem().row(&[0, 1_001]), Err(BuildError::Coefficient(1_001)));
    assert_eq!(problem().row(&[-1_001, 0]), Err(BuildError::Coefficient(-1_001)));
    assert_eq!(problem().row(&[0, 0]), Err(BuildError::BlankRow));
    assert_eq!(problem().at_least(2, 0), Err(BuildError::NoVariable(2)));
    assert_eq!(problem().at_most(1, 30_001), Err(BuildError::Limit(30_001)));
    assert_eq!(problem().at_least(1, -30_001), Err(BuildError::Limit(-30_001)));
    let limited = problem().at_least(1, 5).unwrap();
    assert_eq!(limited.clone().at_least(1, 5), Err(BuildError::LimitTwice(1)));
    assert_eq!(limited.clone().above(1, 4), Err(BuildError::LimitTwice(1)));
    assert_eq!(limited.exactly(1, 5), Err(BuildError::LimitTwice(1)));
    assert_eq!(problem().below(1, 30_001), Err(BuildError::Limit(30_001)));
    let full = (0..MOST_ROWS).fold(problem(), |full, _| full.row(&[1_000, -1_000]).unwrap());
    assert_eq!(full.clone().row(&[1, 1]), Err(BuildError::Rows));
    for fewer in [0, 16, MOST_ROWS - 1] {
        assert_eq!(full.solve_within(fewer), Err(Refusal::Sizes));
    }
    for most in [MOST_ROWS, MOST_ROWS + 1, usize::MAX] {
        assert_eq!(full.solve_within(most), Ok(full.solve()));
    }
    assert_eq!(full.check(&[]), Err(Refusal::Short));
    assert!(matches!(full.solve().verdict, Verdict::Can { .. }));

    let rows = || TimeRows::new(2).unwrap();
    assert_eq!(TimeRows::new(0), Err(BuildError::Vertices(0)));
    assert_eq!(TimeRows::new(65), Err(BuildError::Vertices(65)));
    assert_eq!(rows().at_most(2, 0, 1), Err(BuildError::NoVertex(2)));
    assert_eq!(rows().below(0, 2, 1), Err(BuildError::NoVertex(2)));
    assert_eq!(rows().below(0, 1, 30_001), Err(BuildError::Length(30_001)));
    let full = (0..MOST_TIME_ROWS).fold(rows(), |full, _| full.at_most(0, 1, 30_000).unwrap());
    assert_eq!(full.clone().at_most(0, 1, 0), Err(BuildError::TimeRows));
    assert_eq!(full.solve(), Schedule::Times(vec![Time { minutes: 0, small: 0 }; 2]));
}

#[test]
fn texts_of_what_cannot_be_built() {
    let text = |error: BuildError| error.to_string();
    assert_eq!(text(BuildError::Variables(9)), "9 variables: there are 1 to 8");
    assert_eq!(text(BuildError::Limit(30_001)), "30001: a limit is from -30,000 to 30,000");
    assert_eq!(text(BuildError::LimitTwice(3)), "variable 3 has a limit on that side already");
    let long = "30001: the length of a time row is from -30,000 to 30,000";
    assert_eq!(text(BuildError::Length(30_001)), long);
    assert_eq!(text(BuildError::NoName("zon1".to_string())), "there is no variable zon1");
    assert_eq!(text(BuildError::NameTwice("x".to_string())), "x comes twice");
    assert_eq!(text(BuildError::Unlimited), "a limit has a lower or an upper end, or both");
}
