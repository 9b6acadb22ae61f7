//! Wide answers and evidence about time rows, through the typed face.

use problems::limits::Family;
use problems::random::{seed, Random};
use problems::wide::dense;
use problems::worked;
use scatterflock::sizes::MOST_WIDE;
use scatterflock::{check_times, check_wide, times, widened};
use scatterflock::{Judgement, Problem, Refusal, TimeRows, TimesRefusal, Verdict, WideVerdict};

#[test]
fn worked_cases_are_decided_alike() {
    for case in worked::limits() {
        let problem = Problem::from_words(&case.words).unwrap();
        let answer = problem.decide().unwrap();
        assert_eq!(answer.evidence(), widened(&case.answer), "{}", case.name);
        assert_eq!(problem.check_wide(&answer.evidence()), Ok(Judgement::Accepted));
        let narrow = problem.solve();
        assert_eq!(answer.to_string(), narrow.to_string(), "{}", case.name);
        let is_plain = |f: &scatterflock::Fractions<i128>| f.over.to_string();
        let whole = narrow.fractions().filter(|_| !answer.to_string().contains("small"));
        if let Some(fractions) = whole {
            let digits: Vec<String> = fractions.numerators.iter().map(i128::to_string).collect();
            let found = answer.fractions().unwrap();
            assert_eq!((found.numerators, found.over), (digits, is_plain(&fractions)));
        }
    }
}

#[test]
fn every_accepted_problem_is_decided() {
    let seed = seed();
    println!("SEED={seed}");
    let mut beyond = 0;
    for number in 0..1_400 {
        let mut random = Random::of_problem(seed, number);
        let words = match number % 10 {
            0 => dense(&mut random, 1_000),
            1 => dense(&mut random, 100),
            _ => Family::ACCEPTED[number as usize % Family::ACCEPTED.len()].words(&mut random),
        };
        let problem = Problem::from_words(&words).unwrap();
        let answer =
            problem.decide().unwrap_or_else(|| panic!("SEED={seed}, undecided: {words:?}"));
        let evidence = answer.evidence();
        assert!(evidence.len() <= MOST_WIDE);
        assert_eq!(check_wide(&words, &evidence), Ok(Judgement::Accepted), "SEED={seed}");
        match problem.solve().verdict {
            Verdict::OutOfRange => beyond += 1,
            verdict => assert_eq!(verdict.number(), answer.verdict.number(), "SEED={seed}"),
        }
        assert_eq!(answer.fractions().is_some(), matches!(answer.verdict, WideVerdict::Can { .. }));
    }
    assert!(beyond > 140, "{beyond} beyond the range, SEED={seed}");
}

#[test]
fn refusals_of_the_checkers() {
    assert_eq!(check_wide(&[9, 0], &[]), Err(Refusal::Sizes));
    assert_eq!(check_wide(&[1, 0, 0, 0, 0], &[0; 13]), Err(Refusal::Short));
    assert_eq!(check_wide(&[1, 0, 0, 0, 0], &[0; 14]), Ok(Judgement::Rejected));
    assert_eq!(check_times(&[65, 0], &[]), Err(TimesRefusal::Sizes));
    assert_eq!(check_times(&[1, 0], &[1, 1, 0]), Err(TimesRefusal::Short));
    assert_eq!(check_times(&[1, 0], &[1, 1, i64::MIN, 0]), Ok(Judgement::Accepted));
}

#[test]
fn every_schedule_is_accepted() {
    let seed = seed();
    println!("SEED={seed}");
    for number in 0..900 {
        let mut random = Random::of_problem(seed, number);
        let families = problems::times::Family::ACCEPTED;
        let rows = families[number as usize % families.len()].words(&mut random);
        let schedule = times(&rows).unwrap();
        let evidence = schedule.evidence(rows[0] as usize);
        assert_eq!(check_times(&rows, &evidence), Ok(Judgement::Accepted), "SEED={seed}: {rows:?}");
    }
    let rows = TimeRows::new(2).unwrap().at_most(0, 1, -3).unwrap();
    assert_eq!(rows.check(&[1, 2, 7, 10, 0, 0]), Ok(Judgement::Accepted));
    assert_eq!(rows.check(&[1, 2, 7, 9, 0, 0]), Ok(Judgement::Rejected));
    assert_eq!(rows.check(&[]), Err(TimesRefusal::Short));
}
