//! Runs worked by hand beside the cases, each for one sentence of the rules.

use problems::draft::{at_least, at_most, between, Draft, FREE};
use reference::solve;

fn answer(n: usize, rows: &[&[i32]], limits: &[[i32; 3]]) -> Vec<i64> {
    let mut out = vec![0; 3 + 2 * limits.len()];
    assert_eq!(solve(&Draft::new(n, rows, limits).words(), &mut out), 0);
    out
}

#[test]
fn a_start_value_is_zero_or_the_nearest_limit() {
    let limits = [at_least(3), at_most(-4), between(-2, 5), between(6, 9), between(-8, -7), FREE];
    let out = answer(6, &[], &limits);
    assert_eq!(out[..9], [1, 0, 1, 3, -4, 0, 6, -7, 0]);
}

#[test]
fn the_lowest_crossed_variable_is_named() {
    let limits = [FREE, between(2, 2), between(1, 0), between(5, 4)];
    let out = answer(3, &[&[1, 0, 0]], &limits);
    assert_eq!(out, [2, 0, 0, 0, 0, 1, 0, 0, 0, 1, 0]);
}

#[test]
fn crossed_limits_of_a_row_count_too() {
    let out = answer(1, &[&[1]], &[at_least(7), between(1, 0)]);
    assert_eq!(out, [2, 0, 0, 0, 1, 0, 1]);
}

#[test]
fn an_upper_limit_is_left_by_falling() {
    let out = answer(1, &[&[2]], &[FREE, at_most(-3)]);
    assert_eq!(out, [1, 1, 2, -3, -6, 0, 0]);
}

#[test]
fn a_pivot_below_zero_keeps_the_denominator_above_zero() {
    let out = answer(1, &[&[-2]], &[FREE, at_least(3)]);
    assert_eq!(out, [1, 1, 2, -3, 6, 0, 0]);
}

#[test]
fn a_variable_at_its_limit_does_not_suit() {
    let limits = [at_most(0), FREE, at_least(5)];
    let out = answer(2, &[&[1, 1]], &limits);
    assert_eq!(out, [1, 1, 1, 0, 5, 5, 0, 0, 0]);
}

#[test]
fn the_smallest_suitable_variable_enters() {
    let out = answer(2, &[&[1, 1]], &[FREE, FREE, at_least(5)]);
    assert_eq!(out, [1, 1, 1, 5, 0, 5, 0, 0, 0]);
}

/// Variable 2 leaves for 0, then row 3 must rise and 0 is basic: of the
/// nonbasic variables 2 and 1, the smaller is not the first column.
#[test]
fn smallest_means_the_number_not_the_column() {
    let rows: [&[i32]; 2] = [&[1, 1], &[1, 2]];
    let out = answer(2, &rows, &[FREE, FREE, at_least(4), at_least(6)]);
    assert_eq!(out, [1, 2, 1, 2, 2, 4, 6, 0, 0, 0, 0]);
}

#[test]
fn the_lowest_violated_variable_leaves_not_the_worst() {
    let rows: [&[i32]; 2] = [&[1], &[1]];
    let out = answer(1, &rows, &[FREE, at_least(1), at_least(100)]);
    assert_eq!(out, [1, 2, 1, 100, 100, 100, 0, 0, 0]);
}

#[test]
fn multipliers_are_the_sizes_of_the_entries_not_reduced() {
    let limits = [at_most(-1), at_least(1), at_least(3)];
    let out = answer(2, &[&[2, -2]], &limits);
    assert_eq!(out, [2, 0, 0, 0, 2, 1, 2, 0, 0]);
}

#[test]
fn a_violated_upper_limit_gets_the_common_number() {
    let limits = [at_least(1), at_most(-1), at_most(-3)];
    let out = answer(2, &[&[2, -2]], &limits);
    assert_eq!(out, [2, 0, 0, 2, 0, 0, 0, 2, 1]);
}

/// After two exchanges the third row has the determinant of the coefficients
/// as an entry, 999 * 1999 * 1996, which is above 2,147,483,647. After one
/// exchange no number is above 2,000,000, so no run ends out of range sooner.
#[test]
fn out_of_range_leaves_the_pivots_completed_so_far_and_zeros() {
    let rows: [&[i32]; 3] = [&[-999, 1000, 997], &[999, 999, -1000], &[999, -1000, 999]];
    let one = at_least(1);
    let out = answer(3, &rows, &[FREE, FREE, FREE, one, one, one]);
    assert_eq!(out, [3, 1, 0, 0, 0, 0, 0, 0, 0, 0, 0, 0, 0, 0, 0]);
}
