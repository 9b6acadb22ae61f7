//! SMT-LIB texts of the archive: those of the page, in slices of every length,
//! the longest and the shortest one, and those of random problems.

use differential::archive::{self, LINKED};
use differential::{report, smtlib};
use problems::draft::{at_least, at_most, between, Draft, FREE};
use problems::published::published;
use problems::random::{seed, Random};
use problems::worked;
use scatterflock::sizes::{
    LARGEST_COEFFICIENT, LARGEST_LIMIT, MOST_ROWS, MOST_SMTLIB, MOST_VARIABLES,
};

const PROBLEMS: u64 = if LINKED { 60_000 } else { 6_000 };
const PAGE: &str = include_str!("../../../docs/formats/smtlib.md");
/// The words of its second text.
const STRICT: [i32; 13] = [2, 1, 1, 1, 5, 0, 0, 10, 0, 3, 5, 3, 0];

fn text(words: &[i32]) -> String {
    let mut text = vec![0; MOST_SMTLIB];
    let written = archive::smtlib_write(words, &mut text);
    assert_eq!(written.refused, 0, "{words:?}");
    String::from_utf8(text[..written.count].to_vec()).unwrap()
}

/// The texts that the page shows whole.
fn shown() -> Vec<String> {
    let lines = PAGE.lines().filter_map(|line| line.strip_prefix("    ("));
    let all: String = lines.map(|line| format!("({line}\n")).collect();
    all.split_inclusive("(check-sat)\n").map(str::to_string).collect()
}

#[test]
fn the_page_shows_what_is_written() {
    assert_eq!(shown()[..2], [text(&worked::case_a().words), text(&STRICT)]);
    for (text, counts) in shown().iter().zip(["13 lines, 330 bytes", "9 lines, 195 bytes"]) {
        assert_eq!(counts, format!("{} lines, {} bytes", text.lines().count(), text.len()));
        assert!(PAGE.contains(counts), "{counts}");
    }
}

#[test]
fn one_column_zeros_and_numbers_below_0() {
    let one = Draft::new(1, &[&[-2]], &[FREE, between(-7, -7)]).words();
    let lines = "(set-logic QF_LRA)\n(declare-const x0 Real)\n(declare-const r0 Real)\n\
                 (assert (= r0 (* (- 2) x0)))\n(assert (>= r0 (- 7)))\n(assert (<= r0 (- 7)))\n\
                 (check-sat)\n";
    assert_eq!(text(&one), lines);
    let zeros = Draft::new(3, &[&[0, -1, 0]], &[at_most(0), FREE, FREE, at_least(1)]).words();
    let row = "\n(assert (= r0 (+ (* 0 x0) (* (- 1) x1) (* 0 x2))))\n(assert (<= x0 0))\n";
    assert!(text(&zeros).contains(row), "{}", text(&zeros));
}

#[test]
fn every_room_of_worked_and_published_problems() {
    let mut random = Random::of_problem(1, 0);
    for case in worked::limits().into_iter().chain(published()) {
        let needed = text(&case.words).len();
        for room in (0..60).chain(needed - 3..needed + 3) {
            let number = smtlib::compare_room(&mut random, &case.words, room).unwrap();
            assert_eq!(number, if room < needed { 7 } else { 0 }, "{}, {room}", case.name);
        }
    }
    for case in worked::bad_kinds().into_iter().chain([worked::case_i()]) {
        for room in [0, 1, 400] {
            assert_eq!(smtlib::compare_room(&mut random, &case.words, room), Ok(case.number));
        }
    }
}

#[test]
fn the_longest_and_the_shortest() {
    let row = [-LARGEST_COEFFICIENT; MOST_VARIABLES];
    let limits = [between(-LARGEST_LIMIT, -LARGEST_LIMIT); MOST_VARIABLES + MOST_ROWS];
    let longest = Draft::new(MOST_VARIABLES, &[&row[..]; MOST_ROWS], &limits).words();
    // Each x, and each of the first ten rows, has one digit where the bound has two.
    let spared = 3 * MOST_VARIABLES + 4 * 10;
    assert_eq!(text(&longest).len(), MOST_SMTLIB - spared);
    let mut random = Random::of_problem(2, 0);
    for room in MOST_SMTLIB - spared - 2..=MOST_SMTLIB {
        let number = smtlib::compare_room(&mut random, &longest, room).unwrap();
        assert_eq!(number, if room < MOST_SMTLIB - spared { 7 } else { 0 });
    }
    assert_eq!(text(&[1, 0, 0, 0, 0]).len(), 55);
}

#[test]
fn random_problems() {
    let seed = seed();
    println!("SEED={seed}");
    let report = report::smtlib(seed, PROBLEMS).unwrap_or_else(|what| panic!("{what}"));
    println!("{report}");
    assert!(report.of("written") > PROBLEMS / 2, "SEED={seed}");
    assert!(report.of("refused 7") > PROBLEMS / 20, "SEED={seed}");
    for number in (1..=6).chain([10]) {
        let refused = report.of(&format!("refused {number}"));
        assert!(refused > PROBLEMS / 1_000, "{number}, SEED={seed}");
    }
}
