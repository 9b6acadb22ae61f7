//! Each refusal of the limit solver and the checker, beside the nearest words
//! that pass.

use problems::draft::{above, at_least, at_most, below, between, Draft, FREE};
use problems::worked;
use reference::{check, solve, solve_within};

/// What the solver returns. Refused, it keeps the output; answered, it writes
/// a verdict. The checker refuses the same words by the same number.
fn returned(words: &[i32]) -> u32 {
    let mut out = [-5; 70];
    let number = solve(words, &mut out);
    if number == 0 {
        assert!((1..=3).contains(&out[0]));
        assert!(check(words, &out) >= 8);
    } else {
        assert_eq!(out, [-5; 70]);
        assert_eq!(check(words, &out), number);
    }
    number
}

/// n variables and m rows without limits.
fn free(n: usize, m: usize) -> Vec<i32> {
    Draft { n, rows: vec![vec![1; n]; m], limits: vec![FREE; n + m] }.words()
}

fn one_row(coefficient: i32, own: [i32; 3], of_row: [i32; 3]) -> u32 {
    returned(&Draft::new(1, &[&[coefficient]], &[own, of_row]).words())
}

#[test]
fn fewer_than_two_words() {
    assert_eq!(returned(&[]), 1);
    assert_eq!(returned(&[1]), 1);
    assert_eq!(returned(&[i32::MAX]), 1);
    assert_eq!(returned(&[1, 0]), 3);
}

#[test]
fn sizes() {
    for (n, m) in [(1, 0), (1, 24), (8, 0), (8, 24)] {
        assert_eq!(returned(&free(n, m)), 0);
    }
    for (n, m) in [(9, 0), (1, 25), (9, 25)] {
        assert_eq!(returned(&free(n, m)), 2);
    }
    for start in [[0, 0], [-1, 0], [1, -1], [9, 24], [8, 25], [i32::MIN, 0], [1, i32::MAX]] {
        assert_eq!(returned(&start), 2);
    }
}

/// Within fewer rows the second test alone asks for these, in its place; more
/// than the most are not to be had.
#[test]
fn sizes_within_fewer_rows() {
    let mut blank = free(2, 17);
    blank[2..4].fill(0);
    for most in (0..=30).chain([u32::MAX]) {
        for m in 0..=26 {
            let number = if m <= most.min(24) { 0 } else { 2 };
            let mut out = [-5; 70];
            assert_eq!(solve_within(most, &free(2, m as usize), &mut out), number, "{m} of {most}");
            assert_eq!(out == [-5; 70], number != 0);
        }
        assert_eq!(solve_within(most, &[1], &mut []), 1);
        assert_eq!(solve_within(most, &[9, 0], &mut []), 2);
        assert_eq!(solve_within(most, &[1, -1], &mut []), 2);
        assert_eq!(solve_within(most, &[1, 0], &mut []), 3);
        assert_eq!(solve_within(most, &free(2, 0), &mut [0; 6]), 7);
        let number = if most < 17 { 2 } else { 10 };
        assert_eq!(solve_within(most, &blank, &mut []), number, "{most}");
    }
}

#[test]
fn length() {
    let mut words = free(8, 24);
    assert_eq!(words.len(), 290);
    words.push(0);
    assert_eq!(returned(&words), 3);
    words.truncate(289);
    assert_eq!(returned(&words), 3);
}

#[test]
fn coefficients() {
    for passes in [1_000, -1_000] {
        assert_eq!(one_row(passes, FREE, FREE), 0);
    }
    for refused in [1_001, -1_001, i32::MIN, i32::MAX] {
        assert_eq!(one_row(refused, FREE, FREE), 4);
    }
    let mut last = free(8, 24);
    last[2 + 8 * 24 - 1] = 1_001;
    assert_eq!(returned(&last), 4);
    last[2 + 8 * 24 - 1] = 1_000;
    assert_eq!(returned(&last), 0);
}

#[test]
fn kinds() {
    let pass = [0, 1, 2, 3, 5, 7, 10, 11, 15];
    for kind in (-1..=16).chain([31, 32, i32::MIN, i32::MAX]) {
        let number = if pass.contains(&kind) { 0 } else { 5 };
        assert_eq!(one_row(1, [kind, 0, 0], FREE), number, "kind {kind}");
        assert_eq!(one_row(1, FREE, [kind, 0, 0]), number, "kind {kind}");
        assert_eq!(one_row(1, [kind, 0, 0], [kind, 0, 0]), number, "kind {kind}");
    }
    for case in worked::bad_kinds() {
        assert_eq!(returned(&case.words), case.number, "{}", case.name);
    }
}

/// The word of a limit is not looked at before all kinds are.
#[test]
fn a_mark_on_a_missing_limit_comes_before_any_limit() {
    for kind in [4, 6, 8, 9, 12, 13, 14] {
        assert_eq!(one_row(1, [kind, 30_001, 30_001], FREE), 5);
        assert_eq!(one_row(1, [1, 30_001, 0], [kind, 0, 0]), 5);
        assert_eq!(one_row(1_001, [kind, 0, 0], FREE), 4);
        assert_eq!(one_row(0, [kind, 0, 0], FREE), 5);
    }
}

#[test]
fn strict_limits_have_the_range_of_all() {
    for number in [30_000, -30_000] {
        assert_eq!(one_row(1, FREE, above(number)), 0);
        assert_eq!(one_row(1, FREE, below(number)), 0);
    }
    for number in [30_001, -30_001] {
        assert_eq!(one_row(1, FREE, above(number)), 6);
        assert_eq!(one_row(1, FREE, below(number)), 6);
        assert_eq!(one_row(1, FREE, [15, 0, number]), 6);
        assert_eq!(one_row(1, FREE, [15, number, 0]), 6);
    }
    assert_eq!(one_row(1, [5, 3, 1], FREE), 6);
    assert_eq!(one_row(1, [10, 1, 3], FREE), 6);
}

#[test]
fn limits() {
    for number in [30_000, -30_000] {
        assert_eq!(one_row(1, at_least(number), FREE), 0);
        assert_eq!(one_row(1, FREE, at_most(number)), 0);
        assert_eq!(one_row(1, FREE, between(number, number)), 0);
    }
    for number in [30_001, -30_001, i32::MIN, i32::MAX] {
        assert_eq!(one_row(1, at_least(number), FREE), 6);
        assert_eq!(one_row(1, FREE, at_most(number)), 6);
        assert_eq!(one_row(1, FREE, between(0, number)), 6);
        assert_eq!(one_row(1, FREE, between(number, 0)), 6);
    }
}

#[test]
fn a_missing_limit_has_the_word_zero() {
    for word in [5, -1, 30_001] {
        assert_eq!(one_row(1, [1, 3, word], FREE), 6);
        assert_eq!(one_row(1, [2, word, 3], FREE), 6);
        assert_eq!(one_row(1, FREE, [0, word, 0]), 6);
        assert_eq!(one_row(1, FREE, [0, 0, word]), 6);
    }
    assert_eq!(one_row(1, [1, 3, 0], [2, 0, 3]), 0);
}

#[test]
fn a_row_of_zeros() {
    assert_eq!(one_row(0, FREE, FREE), 10);
    assert_eq!(one_row(0, FREE, at_least(1)), 10);
    assert_eq!(one_row(0, between(1, 0), FREE), 10);
    for coefficient in [1, -1] {
        assert_eq!(one_row(coefficient, FREE, FREE), 0);
    }
    for row in 0..24 {
        let mut words = free(8, 24);
        words[2 + 8 * row..2 + 8 * (row + 1)].fill(0);
        assert_eq!(returned(&words), 10);
        for column in 0..8 {
            let mut words = words.clone();
            words[2 + 8 * row + column] = -1;
            assert_eq!(returned(&words), 0);
        }
    }
}

#[test]
fn a_row_of_zeros_comes_after_limits_and_before_room() {
    assert_eq!(one_row(0, [6, 0, 0], FREE), 5);
    assert_eq!(one_row(0, [1, 30_001, 0], FREE), 6);
    assert_eq!(one_row(0, [1, 0, 5], FREE), 6);
    let words = Draft::new(2, &[&[0, 0], &[1_001, 0]], &[FREE; 4]).words();
    assert_eq!(returned(&words), 4);
    let words = Draft::new(1, &[&[0]], &[FREE; 2]).words();
    assert_eq!(returned(&words[..8]), 3);
    assert_eq!(solve(&words, &mut []), 10);
    assert_eq!(check(&words, &[]), 10);
}

#[test]
fn an_earlier_refusal_wins_wherever_it_stands() {
    assert_eq!(one_row(1_001, [7, 0, 0], FREE), 4);
    assert_eq!(one_row(1_001, [8, 0, 0], FREE), 4);
    assert_eq!(one_row(1, [1, 30_001, 0], [8, 0, 0]), 5);
    assert_eq!(returned(&[9, 0, 0]), 2);
    assert_eq!(returned(&[1, 1, 1_001]), 3);
}

#[test]
fn a_short_output_is_refused_last_and_kept() {
    let words = free(2, 1);
    for length in 0..9 {
        let mut out = vec![4; length];
        assert_eq!(solve(&words, &mut out), 7);
        assert_eq!(out, vec![4; length]);
        assert_eq!(check(&words, &out), 7);
    }
    assert_eq!(solve(&words, &mut [0; 9]), 0);
    assert_eq!(check(&words, &[1, 0, 1, 0, 0, 0, 0, 0, 0]), 8);
    assert_eq!(solve(&[1, 0, 0, 1, 0], &mut []), 6);
    assert_eq!(check(&[1, 0, 0, 1, 0], &[]), 6);
}
