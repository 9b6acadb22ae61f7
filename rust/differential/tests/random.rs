//! Random problems, with a seed that is printed and can be given again: 400,000,
//! 10,000 sessions, 7,000 days' files and 6,000 sheets a run where the archive is
//! linked, 79,000, 2,000, 1,400 and 1,200 under an emulator.

use differential::archive::LINKED;
use differential::report;
use problems::random::seed;

const LIMIT_PROBLEMS: u64 = if LINKED { 200_000 } else { 40_000 };
const SLICED_PROBLEMS: u64 = if LINKED { 60_000 } else { 10_000 };
const SESSIONS: u64 = if LINKED { 10_000 } else { 2_000 };
const TRACED_PROBLEMS: u64 = if LINKED { 60_000 } else { 10_000 };
const SHOWN_PROBLEMS: u64 = if LINKED { 20_000 } else { 4_000 };
const TIME_PROBLEMS: u64 = if LINKED { 60_000 } else { 15_000 };
const FILES: u64 = if LINKED { 7_000 } else { 1_400 };
const SHEETS: u64 = if LINKED { 6_000 } else { 1_200 };

#[test]
fn limit_problems() {
    let seed = seed();
    println!("SEED={seed}");
    let report = report::limits(seed, LIMIT_PROBLEMS).unwrap_or_else(|what| panic!("{what}"));
    println!("{report}");
    for outcome in ["can", "cannot"] {
        assert!(report.of(outcome) > LIMIT_PROBLEMS / 5, "{outcome}, SEED={seed}");
    }
    assert!(report.of("range") > LIMIT_PROBLEMS / 100, "range, SEED={seed}");
    assert!(report.with_small > LIMIT_PROBLEMS / 50, "small parts, SEED={seed}");
    assert!(report.with_more_rows > LIMIT_PROBLEMS / 15, "fewer rows, SEED={seed}");
    for number in (1..=7).chain([10]) {
        let refused = report.of(&format!("refused {number}"));
        assert!(refused > LIMIT_PROBLEMS / 1_000, "{number}, SEED={seed}");
    }
    for number in 1..=10 {
        assert!(report.calls[&number] > LIMIT_PROBLEMS / 1_000, "check {number}, SEED={seed}");
    }
}

#[test]
fn runs_in_slices() {
    let seed = seed();
    println!("SEED={seed}");
    let report = report::slices(seed, SLICED_PROBLEMS).unwrap_or_else(|what| panic!("{what}"));
    println!("{report}");
    for outcome in ["can", "cannot"] {
        assert!(report.of(outcome) > SLICED_PROBLEMS / 5, "{outcome}, SEED={seed}");
    }
    assert!(report.of("range") > SLICED_PROBLEMS / 100, "range, SEED={seed}");
    for number in (1..=6).chain([10]) {
        let refused = report.of(&format!("refused {number}"));
        assert!(refused > SLICED_PROBLEMS / 1_000, "{number}, SEED={seed}");
    }
    for number in [0, 7] {
        assert!(report.calls[&number] > SLICED_PROBLEMS / 10, "continue {number}, SEED={seed}");
    }
}

#[test]
fn sessions() {
    let seed = seed();
    println!("SEED={seed}");
    let report = report::sessions(seed, SESSIONS).unwrap_or_else(|what| panic!("{what}"));
    println!("{report}");
    for (outcome, least) in [
        ("can", 2 * SESSIONS),
        ("can after pivots", SESSIONS / 2),
        ("cannot", SESSIONS / 2),
        ("conflict", SESSIONS / if LINKED { 9 } else { 12 }),
        ("range", SESSIONS / 25),
        ("conflict ended", SESSIONS / 50),
        ("values seen", 25 * SESSIONS),
        ("violation shown", SESSIONS),
        ("violation over D", SESSIONS / 20),
    ] {
        assert!(report.of(outcome) > least, "{outcome}, SEED={seed}");
    }
    for number in (1..=6).chain([10]) {
        let refused = report.of(&format!("refused {number}"));
        assert!(refused > SESSIONS / 1_000, "{number}, SEED={seed}");
    }
    for number in [0, 7, 41, 42, 43, 44] {
        assert!(report.calls[&number] > SESSIONS / 10, "{number}, SEED={seed}");
    }
}

#[test]
fn traces() {
    let seed = seed();
    println!("SEED={seed}");
    let report = report::traces(seed, TRACED_PROBLEMS).unwrap_or_else(|what| panic!("{what}"));
    println!("{report}");
    for (outcome, least) in [
        ("pivots", TRACED_PROBLEMS / 2),
        ("leaving", TRACED_PROBLEMS / 4),
        ("entering", TRACED_PROBLEMS / 10),
        ("mask", TRACED_PROBLEMS / 4),
    ] {
        assert!(report.of(outcome) > least, "{outcome}, SEED={seed}");
    }
    for number in (1..=6).chain([10]) {
        let refused = report.of(&format!("refused {number}"));
        assert!(refused > TRACED_PROBLEMS / 1_000, "{number}, SEED={seed}");
    }
    for number in [0, 7, 51, 52, 53, 54] {
        assert!(report.calls[&number] > TRACED_PROBLEMS / 20, "{number}, SEED={seed}");
    }
}

#[test]
fn first_violations() {
    let seed = seed();
    println!("SEED={seed}");
    let report = report::violations(seed, SHOWN_PROBLEMS).unwrap_or_else(|what| panic!("{what}"));
    println!("{report}");
    for outcome in ["nothing", "below", "above", "by small amounts"] {
        assert!(report.of(outcome) > SHOWN_PROBLEMS / 50, "{outcome}, SEED={seed}");
    }
    for number in (1..=6).chain([10]) {
        let refused = report.of(&format!("refused {number}"));
        assert!(refused > SHOWN_PROBLEMS / 1_000, "{number}, SEED={seed}");
    }
}

#[test]
fn time_rows() {
    let seed = seed();
    println!("SEED={seed}");
    let report = report::times(seed, TIME_PROBLEMS).unwrap_or_else(|what| panic!("{what}"));
    println!("{report}");
    for outcome in ["times", "cycle"] {
        assert!(report.of(outcome) > TIME_PROBLEMS / 10, "{outcome}, SEED={seed}");
    }
    for number in 11..=17 {
        let refused = report.of(&format!("refused {number}"));
        assert!(refused > TIME_PROBLEMS / 1_000, "{number}, SEED={seed}");
    }
    for number in [8, 9] {
        assert!(report.calls[&number] > TIME_PROBLEMS / 4, "check {number}, SEED={seed}");
    }
    assert!(report.calls[&17] > TIME_PROBLEMS / 1_000, "check 17, SEED={seed}");
}

/// A least share is four standard deviations below what is expected, or lower.
#[test]
fn days() {
    let seed = seed();
    println!("SEED={seed}");
    let report = report::bundles(seed, FILES).unwrap_or_else(|what| panic!("{what}"));
    println!("{report}");
    for (outcome, least) in [
        ("read", FILES / 3),
        ("refused 30", FILES / 13),
        ("refused 31", FILES / 90),
        ("refused 32", FILES / 75),
        ("refused 33", FILES / 200),
        ("refused 34", FILES / 6),
        ("refused 35", FILES / 10),
        ("bodies", 8 * FILES),
        ("refused bodies", 3 * FILES),
        ("edition 1", FILES / 6),
        ("edition 2", FILES / 6),
        ("more than 16 rows, edition 1", FILES / 70),
        ("more than 16 rows, edition 2", FILES / 70),
    ] {
        assert!(report.of(outcome) > least, "{outcome}, SEED={seed}");
    }
    for (number, least) in [
        (0, FILES / 2),
        (30, FILES / 40),
        (31, FILES / 33),
        (32, FILES / 20),
        (34, FILES / 20),
        (35, FILES / 8),
        (36, FILES / 3),
    ] {
        assert!(report.calls[&number] > least, "the writer's {number}, SEED={seed}");
    }
}

/// A least share is four standard deviations below what is expected, or lower.
#[test]
fn sheets() {
    let seed = seed();
    println!("SEED={seed}");
    let report = report::sheets(seed, SHEETS).unwrap_or_else(|what| panic!("{what}"));
    println!("{report}");
    let mut classes = 0;
    for outcome in ["can", "cannot", "range"] {
        classes += report.of(outcome);
    }
    for number in (1..=6).chain([10]) {
        classes += report.of(&format!("refused {number}"));
    }
    assert_eq!(classes, report.of("bodies"), "SEED={seed}");
    for (outcome, least) in [
        ("sheets", 3 * SHEETS / 4),
        ("bodies", 9 * SHEETS),
        ("can", 7 * SHEETS / 2),
        ("cannot", 5 * SHEETS / 2),
        ("range", SHEETS / 17),
        ("refused 1", 4 * SHEETS / 5),
        ("refused 2", 3 * SHEETS / 5),
        ("refused 3", SHEETS / 4),
        ("refused 4", SHEETS / 150),
        ("refused 5", SHEETS / 6),
        ("refused 6", SHEETS / 45),
        ("refused 10", SHEETS / 16),
        ("pivots", 11 * SHEETS),
        ("named", 7 * SHEETS),
        ("without a verdict", SHEETS / 24),
        ("refused 30", SHEETS / 90),
        ("refused 34", SHEETS / 24),
        ("refused 35", SHEETS / 45),
    ] {
        assert!(report.of(outcome) > least, "{outcome}, SEED={seed}");
    }
}
