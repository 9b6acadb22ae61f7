//! The auditor's sheet, worked by hand from docs/RULES.md, "The auditor's sheet".

use problems::bundles::{bytes, file, ten_bodies};
use reference::{sheet, sheet_text};

/// A sheet: its lines above those of the variables, and the limits that are named.
fn lines(top: &str, named: &[(usize, usize, usize)]) -> String {
    let variable = |variable: usize| {
        let found = named.iter().find(|named| named.0 == variable);
        let (_, lower, upper) = found.copied().unwrap_or((variable, 0, 0));
        format!("{variable} lower {lower} upper {upper}\n")
    };
    top.replace(", ", "\n") + "\n" + &(0..32).map(variable).collect::<String>()
}

fn printed(edition: u32, bodies: &[Vec<i32>]) -> String {
    String::from_utf8(sheet_text(&file(edition, bodies))).unwrap()
}

const NONE_REFUSED: &str = "refused 1 0, refused 2 0, refused 3 0, refused 4 0, refused 5 0, \
                            refused 6 0, refused 10 0";

#[test]
fn ten_bodies_of_every_kind() {
    let top = "bodies 10, can 2, cannot 3, range 1, refused 1 2, refused 2 0, refused 3 1, \
               refused 4 1, refused 5 0, refused 6 0, refused 10 0, pivots 6, largest 2 body 0";
    let named = [(0, 2, 1), (1, 1, 0), (2, 1, 1), (3, 1, 0), (4, 1, 0)];
    assert_eq!(printed(1, &ten_bodies()), lines(top, &named));
    assert_eq!(printed(2, &ten_bodies()), lines(top, &named));
}

#[test]
fn no_verdict_names_no_body() {
    let none = |bodies: &str| format!("{bodies}, pivots 0, largest 0 body none");
    let empty = none(&format!("bodies 0, can 0, cannot 0, range 0, {NONE_REFUSED}"));
    assert_eq!(printed(1, &[]), lines(&empty, &[]));
    let refused = none(
        "bodies 7, can 0, cannot 0, range 0, refused 1 1, refused 2 1, refused 3 1, refused 4 1, \
         refused 5 1, refused 6 1, refused 10 1",
    );
    let bodies = [
        vec![1],
        vec![9, 0],
        vec![1, 0, 0],
        vec![1, 1, 1_001, 0, 0, 0, 0, 0, 0],
        vec![1, 0, 16, 0, 0],
        vec![1, 0, 0, 1, 0],
        vec![1, 1, 0, 0, 0, 0, 0, 0, 0],
    ];
    assert_eq!(printed(2, &bodies), lines(&refused, &[]));
}

#[test]
fn the_lowest_body_that_reached_the_most() {
    let ten = ten_bodies();
    let [a, c, h] = [0, 5, 9].map(|body: usize| ten[body].clone());
    let tie =
        format!("bodies 3, can 2, cannot 1, range 0, {NONE_REFUSED}, pivots 4, largest 2 body 1");
    assert_eq!(printed(1, &[h.clone(), c, a]), lines(&tie, &[(2, 1, 0), (3, 1, 0), (4, 1, 0)]));
    let no_pivot = "bodies 2, can 1, cannot 0, range 0, refused 1 1, refused 2 0, refused 3 0, \
                    refused 4 0, refused 5 0, refused 6 0, refused 10 0, pivots 0, \
                    largest 0 body 1";
    assert_eq!(printed(1, &[vec![], h]), lines(no_pivot, &[]));
}

#[test]
fn rows_by_edition() {
    let body = [vec![1, 17], vec![1; 17], vec![0; 54]].concat();
    let first = "bodies 1, can 0, cannot 0, range 0, refused 1 0, refused 2 1, refused 3 0, \
                 refused 4 0, refused 5 0, refused 6 0, refused 10 0, pivots 0, \
                 largest 0 body none";
    assert_eq!(printed(1, std::slice::from_ref(&body)), lines(first, &[]));
    let second =
        format!("bodies 1, can 1, cannot 0, range 0, {NONE_REFUSED}, pivots 0, largest 0 body 0");
    assert_eq!(printed(2, &[body]), lines(&second, &[]));
}

#[test]
fn a_multiplier_counts_once_and_crossed_limits_count_twice() {
    // x >= 1 and x <= 0, twice; and 7x >= 1 with x <= 0, where the row counts once
    let crossed = vec![1, 0, 3, 1, 0];
    let seven = vec![1, 1, 7, 2, 0, 0, 1, 1, 0];
    let top =
        format!("bodies 3, can 0, cannot 3, range 0, {NONE_REFUSED}, pivots 0, largest 0 body 0");
    let named = [(0, 2, 3), (1, 1, 0)];
    assert_eq!(printed(1, &[crossed.clone(), seven, crossed]), lines(&top, &named));
}

#[test]
fn a_refused_file_has_one_line() {
    for (words, line) in [
        (&[1][..], "refused 30\n"),
        (&[3, 0], "refused 31\n"),
        (&[2, 49], "refused 32\n"),
        (&[1, 1, 4], "refused 33\n"),
        (&[1, 1, 4, -1], "refused 34\n"),
        (&[1, 0, 0], "refused 35\n"),
    ] {
        assert_eq!(sheet_text(&bytes(words)), line.as_bytes(), "{words:?}");
    }
}

#[test]
fn all_of_it_or_nothing() {
    let file = file(1, &[]);
    let text = sheet_text(&file);
    let mut room = vec![b'.'; text.len() + 1];
    assert_eq!(sheet(&file, &mut room[..text.len() - 1]), text.len());
    assert!(room.iter().all(|&byte| byte == b'.'));
    assert_eq!(sheet(&file, &mut room), text.len());
    assert_eq!((&room[..text.len()], room[text.len()]), (&text[..], b'.'));
}
