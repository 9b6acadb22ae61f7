//! Auditors' sheets at the edges: the file of ten bodies and every prefix of it, the
//! most bodies, full bodies, rows by edition, and rooms that are too short by one.

use differential::archive::LINKED;
use differential::sheets::compare_sheet;
use problems::bundles::{bytes, file, file_words, ten_bodies, MOST_BODIES};
use problems::limits::Family;
use problems::random::{seed, Random};
use std::fs;
use std::path::Path;

/// Compares the sheet of a file in rooms around its length, and gives it.
fn compared(file: &[u8]) -> String {
    let text = reference::sheet_text(file);
    for room in [0, text.len() - 1, text.len(), text.len() + 1] {
        compare_sheet(file, room).unwrap_or_else(|what| panic!("{what}: {file:?}"));
    }
    String::from_utf8(text).unwrap()
}

/// A file from the top of the repository.
fn at_top(name: &str) -> Vec<u8> {
    fs::read(Path::new(env!("CARGO_MANIFEST_DIR")).join("../..").join(name)).unwrap()
}

#[test]
fn the_file_of_ten_bodies() {
    let whole = file(1, &ten_bodies());
    assert_eq!(whole, at_top("crates/audit/stdin"));
    assert_eq!(compared(&whole).as_bytes(), at_top("crates/audit/stdout"));
}

#[test]
fn every_prefix_has_one_line() {
    let whole = file(2, &ten_bodies());
    for count in 0..whole.len() {
        let sheet = compared(&whole[..count]);
        assert!(sheet.starts_with("refused 3") && sheet.lines().count() == 1, "{count}: {sheet}");
    }
}

#[test]
fn every_word_of_the_head_one_more_and_one_less() {
    let words = file_words(1, &ten_bodies());
    for place in 0..22 {
        for by in [-1, 1, i32::MIN, 1 << 8, 1 << 16] {
            let mut damaged = words.clone();
            damaged[place] = damaged[place].wrapping_add(by);
            compared(&bytes(&damaged));
        }
    }
}

#[test]
fn the_most_bodies_of_one_kind() {
    let ten = ten_bodies();
    for (edition, most) in [1, 2].into_iter().zip(MOST_BODIES) {
        for body in &ten {
            let sheet = compared(&file(edition, &vec![body.clone(); most]));
            assert!(sheet.starts_with(&format!("bodies {most}\n")), "{sheet}");
        }
        assert_eq!(compared(&file(edition, &vec![vec![]; most + 1])), "refused 32\n");
    }
}

#[test]
fn the_named_body_is_the_lowest() {
    let ten = ten_bodies();
    let [two_pivots, none] = [ten[0].clone(), ten[9].clone()];
    for first in 0..8 {
        let mut bodies = vec![none.clone(); 8];
        bodies[first..].fill(two_pivots.clone());
        bodies.insert(0, vec![]);
        let sheet = compared(&file(1, &bodies));
        assert!(sheet.contains(&format!("\nlargest 2 body {}\n", first + 1)), "{sheet}");
    }
    let sheet = compared(&file(1, &[vec![], none.clone(), none]));
    assert!(sheet.contains("\nlargest 0 body 1\n"), "{sheet}");
}

#[test]
fn rows_by_edition() {
    for rows in 15..=25 {
        let count = rows as usize;
        let body = [vec![1, rows], vec![1; count], vec![0; 3 * (count + 1)]].concat();
        for (edition, most) in [(1, 16), (2, 24)] {
            let sheet = compared(&file(edition, std::slice::from_ref(&body)));
            let line = if rows <= most { "\ncan 1\n" } else { "\nrefused 2 1\n" };
            assert!(sheet.contains(line), "{rows} rows, edition {edition}: {sheet}");
        }
    }
}

/// Problems of the largest size, as many as a file has.
#[test]
fn days_of_full_bodies() {
    let seed = seed();
    println!("SEED={seed}");
    for day in 0..if LINKED { 20 } else { 3 } {
        let mut random = Random::of_problem(seed, day);
        let bodies: Vec<Vec<i32>> =
            (0..MOST_BODIES[1]).map(|_| Family::Full.words(&mut random)).collect();
        let sheet = compared(&file(2, &bodies));
        assert!(sheet.starts_with("bodies 48\n"), "SEED={seed}, day {day}: {sheet}");
    }
}
