//! The checker of wide evidence: numbers of four words in the place of one. It
//! uses the words of the problem and of the answer, and nothing of the run.
//!
//! Renders "Wide evidence" of docs/RULES.md. A number is kept as two halves, and
//! each half of a sum is added up by itself: whatever words are handed in, no
//! half of a sum comes near 128 bits.

use crate::problem::{Limit, Problem};

/// The words of a number.
const LIMBS: usize = 4;
/// What all but the highest of them stay below.
const TURN: i64 = 1 << 32;
/// What the low half of a number stays below.
const HALF: i128 = 1 << 64;

/// `high` times 2^64 and `low`, which is from 0 to 2^64 - 1. So numbers compare
/// as their halves do, the high ones first.
#[derive(Debug, Clone, Copy, PartialEq, Eq, PartialOrd, Ord)]
struct Number {
    high: i128,
    low: i128,
}

const ZERO: Number = Number { high: 0, low: 0 };

/// 1 to 6 and 10 by the problem, 7 for an answer that is too short, 8 for an
/// accepted answer and 9 for any other.
pub fn check_wide(words: &[i32], answer: &[i64]) -> u32 {
    let problem = match Problem::read(words) {
        Ok(problem) => problem,
        Err(refusal) => return refusal,
    };
    let count = problem.variables();
    let Some(needed) = answer.get(..2 + LIMBS * (1 + 2 * count)) else {
        return 7;
    };
    let numbers: Option<Vec<Number>> = needed[2..].chunks(LIMBS).map(Number::read).collect();
    let is_accepted = numbers.is_some_and(|numbers| {
        let over = numbers[0];
        let (first, second) = numbers[1..].split_at(count);
        match needed[0] {
            1 => is_point(&problem, over, first, second),
            2 => over == ZERO && is_contradiction(&problem, [first, second]),
            _ => false,
        }
    });
    if is_accepted {
        8
    } else {
        9
    }
}

impl Number {
    /// Of four words, each in its range: three from 0 to 2^32 - 1, the lowest
    /// first, and one of 32 bits with a sign.
    fn read(limbs: &[i64]) -> Option<Number> {
        let (head, low) = limbs.split_last()?;
        let is_right =
            low.iter().all(|limb| (0..TURN).contains(limb)) && (-TURN / 2..TURN / 2).contains(head);
        let half = |low: i64, high: i64| i128::from(low) + i128::from(TURN) * i128::from(high);
        is_right.then(|| Number { low: half(low[0], low[1]), high: half(low[2], *head) })
    }

    /// What halves come to that have any size: the low one gives up what is
    /// beyond it.
    fn settled(high: i128, low: i128) -> Number {
        Number { high: high + low.div_euclid(HALF), low: low.rem_euclid(HALF) }
    }
}

/// Each number so many times, and all of them added up.
fn sum<'a>(terms: impl Iterator<Item = (i128, &'a Number)>) -> Number {
    let both = terms.map(|(times, number)| (times * number.high, times * number.low));
    let (high, low) = both.fold((0, 0), |sum, term| (sum.0 + term.0, sum.1 + term.1));
    Number::settled(high, low)
}

fn is_point(problem: &Problem, over: Number, plain: &[Number], small: &[Number]) -> bool {
    let pairs = || plain.iter().zip(small).zip(&problem.limits);
    let bound = |limit: Limit| (sum([(limit.plain, &over)].into_iter()), ZERO);
    over > ZERO
        && [plain, small].iter().all(|part| rows_hold(problem, part))
        && pairs().all(|((&plain, &small), limits)| {
            limits.lower.is_none_or(|lower| match lower.strict {
                true => (plain, small) > bound(lower),
                false => (plain, small) >= bound(lower),
            })
        })
        && pairs().all(|((&plain, &small), limits)| {
            limits.upper.is_none_or(|upper| match upper.strict {
                true => (plain, small) < bound(upper),
                false => (plain, small) <= bound(upper),
            })
        })
}

fn rows_hold(problem: &Problem, part: &[Number]) -> bool {
    let (own, sums) = part.split_at(problem.n);
    let found = problem.rows.iter().map(|row| sum(row.iter().copied().zip(own)));
    found.zip(sums).all(|(found, said)| found == *said)
}

fn is_contradiction(problem: &Problem, [lower, upper]: [&[Number]; 2]) -> bool {
    let limits: Vec<[Option<Limit>; 2]> =
        problem.limits.iter().map(|limits| [limits.lower, limits.upper]).collect();
    let taken: Vec<(usize, usize, &Number)> = [lower, upper]
        .into_iter()
        .enumerate()
        .flat_map(|(side, times)| times.iter().enumerate().map(move |(v, times)| (v, side, times)))
        .collect();
    let is_allowed = taken
        .iter()
        .all(|&(v, side, &times)| times == ZERO || times > ZERO && limits[v][side].is_some());
    let signed = |side: usize| if side == 0 { 1 } else { -1 };
    let cancels = (0..problem.n).all(|column| {
        let coefficient = |v: usize| match v.checked_sub(problem.n) {
            Some(row) => problem.rows[row][column],
            None => i128::from(v == column),
        };
        let terms = taken.iter().map(|&(v, side, times)| (signed(side) * coefficient(v), times));
        sum(terms) == ZERO
    });
    let number = |v: usize, side: usize| limits[v][side].map_or(0, |limit| limit.plain);
    let total = sum(taken.iter().map(|&(v, side, times)| (signed(side) * number(v, side), times)));
    let has_strict = taken.iter().any(|&(v, side, &times)| {
        times != ZERO && limits[v][side].is_some_and(|limit| limit.strict)
    });
    is_allowed && cancels && (total > ZERO || total == ZERO && has_strict)
}

#[cfg(test)]
mod tests {
    use super::*;

    #[test]
    fn four_words_are_one_number() {
        let whole =
            |limbs: [i64; 4]| Number::read(&limbs).map(|number| (number.high << 64) + number.low);
        for (limbs, expected) in [
            ([0; 4], 0),
            ([1, 2, 3, 4], 1 + (2 << 32) + (3 << 64) + (4 << 96)),
            ([TURN - 1, TURN - 1, TURN - 1, -1], -1),
            ([TURN - 1, TURN - 1, TURN - 1, TURN / 2 - 1], i128::MAX),
            ([0, 0, 0, -TURN / 2], i128::MIN),
        ] {
            assert_eq!(whole(limbs), Some(expected));
        }
        for limbs in [
            [-1, 0, 0, 0],
            [TURN, 0, 0, 0],
            [0, -1, 0, 0],
            [0, TURN, 0, 0],
            [0, 0, i64::MIN, 0],
            [0, 0, TURN, 0],
            [0, 0, 0, TURN / 2],
            [0, 0, 0, -TURN / 2 - 1],
        ] {
            assert_eq!(whole(limbs), None);
        }
    }

    #[test]
    fn sums_carry_both_ways() {
        let number = |high, low| Number { high, low };
        let ends = [number(5, HALF - 1), number(-5, 1)];
        assert_eq!(sum([3, 0].into_iter().zip(&ends)), number(17, HALF - 3));
        assert_eq!(sum([-1, 0].into_iter().zip(&ends)), number(-6, 1));
        assert_eq!(sum([1, 1].into_iter().zip(&ends)), number(1, 0));
    }
}
