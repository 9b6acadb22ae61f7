//! Strict limits: runs worked by hand, each for one sentence of the rules, and
//! fractions for the small amounts of random answers.

use problems::draft::{above, at_least, at_most, below, between, inside, Draft, FREE};
use problems::evidence::bent;
use problems::limits::Family;
use problems::random::{seed, Random};
use reference::{check, meets, solve};

fn answer(n: usize, rows: &[&[i32]], limits: &[[i32; 3]]) -> Vec<i64> {
    let mut out = vec![0; 3 + 2 * limits.len()];
    assert_eq!(solve(&Draft::new(n, rows, limits).words(), &mut out), 0);
    out
}

#[test]
fn a_start_value_is_one_small_amount_inside_a_strict_limit() {
    let limits =
        [above(0), below(0), inside(-1, 1), above(3), below(-3), inside(0, 1), [11, -1, 0]];
    let out = answer(7, &[], &limits);
    assert_eq!(out[..10], [1, 0, 1, 0, 0, 0, 3, -3, 0, 0]);
    assert_eq!(out[10..], [1, -1, 0, 1, -1, 1, -1]);
}

#[test]
fn equal_limits_are_crossed_where_either_is_strict() {
    assert_eq!(answer(1, &[], &[between(5, 5)]), [1, 0, 1, 5, 0]);
    for kind in [7, 11, 15] {
        assert_eq!(answer(1, &[], &[[kind, 5, 5]]), [2, 0, 0, 1, 1]);
        assert_eq!(answer(1, &[], &[[kind, 0, 0]]), [2, 0, 0, 1, 1]);
    }
    assert_eq!(answer(1, &[&[1]], &[FREE, [7, 5, 5]]), [2, 0, 0, 0, 1, 0, 1]);
}

/// There are fractions between 5 and 6, though no whole number.
#[test]
fn limits_that_are_one_apart_are_not_crossed() {
    assert_eq!(answer(1, &[], &[inside(5, 6)]), [1, 0, 1, 5, 1]);
    assert_eq!(answer(1, &[], &[inside(-6, -5)]), [1, 0, 1, -5, -1]);
    assert_eq!(answer(1, &[], &[inside(-1, 0)]), [1, 0, 1, 0, -1]);
}

#[test]
fn a_small_amount_alone_is_a_violation() {
    assert_eq!(answer(1, &[&[2]], &[FREE, above(0)]), [1, 1, 2, 0, 0, 1, 2]);
    assert_eq!(answer(1, &[&[2]], &[FREE, below(0)]), [1, 1, 2, 0, 0, -1, -2]);
    assert_eq!(answer(1, &[&[2]], &[FREE, at_least(0)]), [1, 0, 1, 0, 0, 0, 0]);
}

#[test]
fn a_variable_beside_its_strict_limit_does_not_suit() {
    let limits = [below(0), FREE, at_least(5)];
    assert_eq!(answer(2, &[&[1, 1]], &limits), [1, 1, 1, 0, 5, 5, -1, 1, 0]);
}

/// x is at 0, and may rise by less than 1; y does not come to enter.
#[test]
fn a_variable_that_has_less_than_one_to_go_suits() {
    let limits = [below(1), FREE, above(0)];
    assert_eq!(answer(2, &[&[1, 1]], &limits), [1, 1, 1, 0, 0, 0, 1, 0, 1]);
}

#[test]
fn the_leaving_variable_takes_the_pair() {
    let rows: [&[i32]; 2] = [&[1, 1], &[1, -1]];
    let out = answer(2, &rows, &[FREE, FREE, above(4), below(-2)]);
    assert_eq!(out, [1, 2, 2, 2, 6, 8, -4, 0, 2, 2, -2]);
}

/// With the first row at its limit x is half a small amount inside its own, and
/// has to be a whole one.
#[test]
fn a_small_amount_over_d_is_compared_with_d_of_them() {
    let rows: [&[i32]; 2] = [&[2, 3], &[1, 0]];
    let out = answer(2, &rows, &[FREE, FREE, above(0), above(0)]);
    assert_eq!(out, [1, 2, 3, 0, 0, 0, 0, 3, -1, 3, 3]);
    let out = answer(2, &rows, &[FREE, FREE, below(0), below(0)]);
    assert_eq!(out, [1, 2, 3, 0, 0, 0, 0, -3, 1, -3, -3]);
}

#[test]
fn what_touches_is_a_contradiction_where_one_limit_is_strict() {
    let told = |limits: [[i32; 3]; 3]| answer(2, &[&[1, 1]], &limits);
    let cannot = [2, 0, 0, 1, 1, 0, 0, 0, 1];
    assert_eq!(told([at_least(2), at_least(2), below(4)]), cannot);
    assert_eq!(told([above(2), at_least(2), at_most(4)]), cannot);
    assert_eq!(told([at_least(2), above(2), at_most(4)]), cannot);
    assert_eq!(told([at_least(2), at_least(2), at_most(4)]), [1, 0, 1, 2, 2, 4, 0, 0, 0]);
}

/// The solver looks for that fraction itself in each of its own answers.
#[test]
fn accepted_points_stand_for_fractions() {
    const PROBLEMS: u64 = 6_000;
    let seed = seed();
    println!("SEED={seed}");
    let (mut own, mut bents) = (0, 0);
    for problem in 0..PROBLEMS {
        let mut random = Random::of_problem(seed, problem);
        let family = Family::ACCEPTED[problem as usize % Family::ACCEPTED.len()];
        let words = family.words(&mut random);
        let mut out = vec![0; 3 + 2 * (words[0] + words[1]) as usize];
        assert_eq!(solve(&words, &mut out), 0);
        let half = 3 + (out.len() - 3) / 2;
        own += u64::from(out[0] == 1 && out[half..].iter().any(|&small| small != 0));
        for _ in 0..4 {
            let bent = bent(&mut random, &words, &out);
            if check(&words, &bent) == 8 && bent[0] == 1 {
                bents += 1;
                assert!(
                    meets(&words, &bent),
                    "SEED={seed}, problem {problem}, {family:?}: {bent:?}"
                );
            }
        }
    }
    println!("{own} answers with small parts, {bents} accepted bent points");
    assert!(own > PROBLEMS / 50 && bents > PROBLEMS / 10, "SEED={seed}");
}
