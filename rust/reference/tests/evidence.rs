//! Evidence that the solver would not give and that is right all the same,
//! and evidence that is nearly right.

use problems::draft::{above, at_least, at_most, below, between, inside, Draft, FREE};
use problems::worked;
use reference::{check, meets};

const LARGEST_NUMBER: i64 = 2_147_483_647;
const LARGEST_NUMERATOR: i64 = 515_396_075_280_000;
const LARGEST_SMALL: i64 = 17_179_869_176;

/// x in 1..3 and y free, row x + 2y at most 9.
fn point_problem() -> Vec<i32> {
    Draft::new(2, &[&[1, 2]], &[between(1, 3), FREE, at_most(9)]).words()
}

/// x at least 2, y at least 2, row x + y at most 3.
fn conflict_problem() -> Vec<i32> {
    Draft::new(2, &[&[1, 1]], &[at_least(2), at_least(2), at_most(3)]).words()
}

fn point(over: i64, numerators: [i64; 3]) -> u32 {
    let [x, y, row] = numerators;
    check(&point_problem(), &[1, 0, over, x, y, row, 0, 0, 0])
}

fn conflict(lower: [i64; 3], upper: [i64; 3]) -> u32 {
    let answer = [&[2, 0, 0], &lower[..], &upper[..]].concat();
    check(&conflict_problem(), &answer)
}

#[test]
fn any_point_within_the_limits_is_accepted() {
    assert_eq!(point(1, [1, 0, 1]), 8);
    assert_eq!(point(1, [3, 3, 9]), 8);
    assert_eq!(point(2, [3, -7, -11]), 8);
    assert_eq!(point(LARGEST_NUMBER, [LARGEST_NUMBER, 0, LARGEST_NUMBER]), 8);
}

#[test]
fn a_point_one_off_is_not() {
    assert_eq!(point(1, [0, 0, 0]), 9);
    assert_eq!(point(1, [4, 0, 4]), 9);
    assert_eq!(point(1, [3, 4, 11]), 9);
    assert_eq!(point(1, [1, 0, 2]), 9);
    assert_eq!(point(1, [1, 0, 0]), 9);
    assert_eq!(point(2, [7, 0, 7]), 9);
}

#[test]
fn the_denominator_is_one_to_the_largest_number() {
    assert_eq!(point(0, [0, 0, 0]), 9);
    assert_eq!(point(-1, [-1, 0, -1]), 9);
    assert_eq!(point(LARGEST_NUMBER + 1, [LARGEST_NUMBER + 1, 0, LARGEST_NUMBER + 1]), 9);
    assert_eq!(point(i64::MIN, [i64::MIN, 0, i64::MIN]), 9);
}

#[test]
fn numerators_end_at_their_bound() {
    let words = Draft::new(1, &[&[1]], &[FREE, FREE]).words();
    for sign in [1, -1] {
        let number = sign * LARGEST_NUMERATOR;
        assert_eq!(check(&words, &[1, 0, 1, number, number, 0, 0]), 8);
        assert_eq!(check(&words, &[1, 0, 1, number + sign, number + sign, 0, 0]), 9);
    }
    for number in [i64::MIN, i64::MAX] {
        assert_eq!(check(&words, &[1, 0, 1, number, number, 0, 0]), 9);
    }
    let steep = Draft::new(1, &[&[1_000]], &[FREE, FREE]).words();
    let most = LARGEST_NUMERATOR / 1_000;
    assert_eq!(check(&steep, &[1, 0, 1, most, 1_000 * most, 0, 0]), 8);
    assert_eq!(check(&steep, &[1, 0, 1, most + 1, 1_000 * (most + 1), 0, 0]), 9);
}

/// Small parts obey the rows as well, also where no limit is strict.
#[test]
fn small_parts_obey_the_rows() {
    let small = |small: [i64; 3]| {
        let answer = [&[1, 0, 2, 4, 0, 4][..], &small].concat();
        check(&point_problem(), &answer)
    };
    for right in [[0, 0, 0], [1, 0, 1], [-5, 2, -1], [0, -3, -6]] {
        assert_eq!(small(right), 8, "{right:?}");
    }
    for wrong in [[1, 0, 0], [0, 1, 1], [0, 0, 1], [0, 0, i64::MIN], [i64::MAX, 0, i64::MAX]] {
        assert_eq!(small(wrong), 9, "{wrong:?}");
    }
}

#[test]
fn small_parts_end_at_their_bound() {
    let words = Draft::new(1, &[&[1]], &[FREE, FREE]).words();
    for sign in [1, -1] {
        let number = sign * LARGEST_SMALL;
        assert_eq!(check(&words, &[1, 0, 1, 0, 0, number, number]), 8);
        assert_eq!(check(&words, &[1, 0, 1, 0, 0, number + sign, number + sign]), 9);
    }
    let steep = Draft::new(1, &[&[8]], &[FREE, FREE]).words();
    let most = LARGEST_SMALL / 8;
    assert_eq!(check(&steep, &[1, 0, 1, 0, 0, most, 8 * most]), 8);
    assert_eq!(check(&steep, &[1, 0, 1, 0, 0, most + 1, 8 * (most + 1)]), 9);
}

/// What the checker says of a lone variable's pair over 2. Where it accepts, the
/// pair stands for a fraction that is within the limits.
fn lone(limits: [i32; 3], plain: i64, small: i64) -> u32 {
    let words = Draft::new(1, &[], &[limits]).words();
    let answer = [1, 0, 2, plain, small];
    let number = check(&words, &answer);
    assert!(number == 9 || meets(&words, &answer));
    number
}

#[test]
fn a_limit_that_is_not_strict_is_met_at_its_number_and_not_a_small_amount_outside() {
    for (plain, small, number) in [(6, 0, 8), (6, 1, 8), (6, -1, 9), (5, 9, 9), (7, -9, 8)] {
        assert_eq!(lone(at_least(3), plain, small), number, "{plain} {small}");
        assert_eq!(lone(at_most(-3), -plain, -small), number, "{plain} {small}");
    }
}

/// One of the small amount is enough, over 2 too, where the run takes two.
#[test]
fn a_strict_limit_is_met_by_any_small_amount_inside() {
    let tried =
        [(6, 0, 9), (6, 1, 8), (6, 2, 8), (6, -1, 9), (5, 9, 9), (7, 0, 8), (7, -LARGEST_SMALL, 8)];
    for (plain, small, number) in tried {
        assert_eq!(lone(above(3), plain, small), number, "{plain} {small}");
        assert_eq!(lone(below(-3), -plain, -small), number, "{plain} {small}");
        assert_eq!(lone(inside(3, 4), plain, small), number, "{plain} {small}");
        assert_eq!(lone([7, 3, 4], plain, small), number, "{plain} {small}");
        assert_eq!(lone([11, -4, -3], -plain, -small), number, "{plain} {small}");
    }
    assert_eq!(lone(inside(3, 4), 8, 0), 9);
    assert_eq!(lone(inside(3, 4), 8, -1), 8);
    assert_eq!(lone([7, 3, 4], 8, 0), 8);
}

#[test]
fn multipliers_may_be_scaled_and_idle() {
    assert_eq!(conflict([1, 1, 0], [0, 0, 1]), 8);
    assert_eq!(conflict([7, 7, 0], [0, 0, 7]), 8);
    let most = LARGEST_NUMBER;
    assert_eq!(conflict([most, most, 0], [0, 0, most]), 8);
    assert_eq!(conflict([most + 1, most + 1, 0], [0, 0, most + 1]), 9);
    let touching = Draft::new(1, &[], &[between(3, 2)]).words();
    assert_eq!(check(&touching, &[2, 9, 0, 5, 5]), 8);
}

#[test]
fn both_limits_of_one_variable_may_count() {
    let words = Draft::new(2, &[&[1, 1]], &[between(2, 2), at_least(2), at_most(3)]).words();
    assert_eq!(check(&words, &[2, 0, 0, 1, 1, 0, 0, 0, 1]), 8);
    assert_eq!(check(&words, &[2, 0, 0, 5, 1, 0, 4, 0, 1]), 8);
    assert_eq!(check(&words, &[2, 0, 0, 5, 1, 0, 3, 0, 1]), 9);
}

#[test]
fn a_total_of_zero_is_not_enough() {
    let words = Draft::new(2, &[&[1, 1]], &[at_least(2), at_least(2), at_most(4)]).words();
    assert_eq!(check(&words, &[2, 0, 0, 1, 1, 0, 0, 0, 1]), 9);
    assert_eq!(conflict([0; 3], [0; 3]), 9);
}

/// .. but where a limit that is taken is strict, it is.
#[test]
fn a_total_of_zero_is_enough_where_a_strict_limit_counts() {
    let rows: [&[i32]; 1] = [&[1, 1]];
    let told = |limits: [[i32; 3]; 3], lower: [i64; 3], upper: [i64; 3]| {
        let words = Draft::new(2, &rows, &limits).words();
        check(&words, &[&[2, 0, 0], &lower[..], &upper[..]].concat())
    };
    let one = ([1, 1, 0], [0, 0, 1]);
    for strict in [
        [above(2), at_least(2), at_most(4)],
        [at_least(2), above(2), at_most(4)],
        [at_least(2), at_least(2), below(4)],
        [above(2), above(2), below(4)],
    ] {
        assert_eq!(told(strict, one.0, one.1), 8);
        assert_eq!(told(strict, [0; 3], [0; 3]), 9);
    }
    assert_eq!(told([at_least(2), at_least(2), [7, 0, 4]], one.0, one.1), 9);
    assert_eq!(told([[11, 2, 3], at_least(2), at_most(4)], one.0, one.1), 9);
    assert_eq!(told([above(2), at_least(2), below(5)], one.0, one.1), 9);
    assert_eq!(told([above(2), at_least(2), at_most(3)], one.0, one.1), 8);
}

/// The two limits of one variable, taken once each.
#[test]
fn equal_limits_contradict_each_other_where_either_is_strict() {
    for (kind, number) in [(3, 9), (7, 8), (11, 8), (15, 8)] {
        let words = Draft::new(1, &[], &[[kind, 5, 5]]).words();
        assert_eq!(check(&words, &[2, 0, 0, 1, 1]), number, "kind {kind}");
        assert_eq!(check(&words, &[2, 0, 0, 0, 0]), 9, "kind {kind}");
    }
}

#[test]
fn a_missing_limit_has_no_multiplier() {
    let words = Draft::new(1, &[&[1]], &[at_most(1), at_most(5)]).words();
    assert_eq!(check(&words, &[2, 0, 0, 1, 0, 0, 0]), 9);
    assert_eq!(check(&words, &[2, 0, 0, 1, 0, 1, 0]), 9);
    let above = Draft::new(1, &[&[1]], &[FREE, at_least(1)]).words();
    assert_eq!(check(&above, &[2, 0, 0, 0, 1, 1, 0]), 9);
}

#[test]
fn every_column_must_cancel() {
    assert_eq!(conflict([1, 0, 0], [0, 0, 1]), 9);
    assert_eq!(conflict([1, 2, 0], [0, 0, 1]), 9);
    assert_eq!(conflict([2, 2, 0], [0, 0, 1]), 9);
}

#[test]
fn multipliers_below_zero_are_not_accepted() {
    let words = Draft::new(1, &[], &[between(0, 5)]).words();
    assert_eq!(check(&words, &[2, 0, 0, -1, -1]), 9);
    assert_eq!(check(&words, &[2, 0, 0, i64::MIN, i64::MIN]), 9);
}

#[test]
fn word_two_of_a_conflict_is_zero() {
    assert_eq!(check(&conflict_problem(), &[2, 0, 1, 1, 1, 0, 0, 0, 1]), 9);
    assert_eq!(check(&conflict_problem(), &[2, 0, 0, 1, 1, 0, 0, 0, 1]), 8);
}

#[test]
fn other_verdicts_are_not_accepted() {
    for verdict in [0, 3, 4, -1, i64::MIN, i64::MAX] {
        assert_eq!(check(&conflict_problem(), &[verdict, 0, 0, 1, 1, 0, 0, 0, 1]), 9);
        assert_eq!(check(&point_problem(), &[verdict, 0, 1, 1, 0, 1, 0, 0, 0]), 9);
    }
}

#[test]
fn word_one_and_the_tail_are_not_judged() {
    for case in worked::limits() {
        for word in [0, -1, i64::MIN, i64::MAX] {
            let mut answer = case.answer.clone();
            answer[1] = word;
            answer.extend([word, 3, word]);
            assert_eq!(check(&case.words, &answer), 8, "{}", case.name);
        }
    }
}

/// In each worked case every other judged word is held in place by something.
#[test]
fn one_off_in_any_judged_word_of_case_f_is_seen() {
    let answer = [2, 0, 0, 1, 1, 0, 0, 0, 1];
    assert_eq!(check(&conflict_problem(), &answer), 8);
    for place in (0..9).filter(|&place| place != 1) {
        for by in [-1, 1] {
            let mut bent = answer;
            bent[place] += by;
            assert_eq!(check(&conflict_problem(), &bent), 9, "word {place} by {by}");
        }
    }
}
