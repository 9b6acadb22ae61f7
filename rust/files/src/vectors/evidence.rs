//! Calls of `check`: evidence that the solver would not give and that is right
//! all the same, and evidence that is nearly right.

use super::{Entry, Vector};
use problems::draft::{at_least, at_most, between, Draft, FREE};
use problems::published::published;
use problems::worked;

const LARGEST_NUMBER: i64 = 2_147_483_647;
const LARGEST_NUMERATOR: i64 = 515_396_075_280_000;

/// All of them.
pub fn all() -> Vec<Vector> {
    let mut vectors = own_answers();
    vectors.extend(points());
    vectors.extend(conflicts());
    vectors.extend(bounds());
    vectors.extend(heads());
    vectors.extend(bent());
    vectors.extend(refused());
    vectors
}

fn check(name: impl Into<String>, words: &[i32], answer: &[i64]) -> Vector {
    Vector { name: name.into(), entry: Entry::Check, words: words.to_vec(), out: answer.to_vec() }
}

fn can(over: i64, numerators: &[i64]) -> Vec<i64> {
    [&[1, 0, over], numerators, &vec![0; numerators.len()]].concat()
}

fn cannot(lower: &[i64], upper: &[i64]) -> Vec<i64> {
    [&[2, 0, 0], lower, upper].concat()
}

/// What the solver answers, also with another word 1 and with words after it.
fn own_answers() -> Vec<Vector> {
    let answered = |case: worked::Limits| (case.name, case.words, case.answer);
    let blank = worked::case_i();
    let contradiction = cannot(&[0, 1], &[0, 0]);
    let cases = worked::limits()
        .into_iter()
        .map(answered)
        .chain([(blank.name, blank.words, contradiction)])
        .chain(published().into_iter().map(answered));
    cases
        .flat_map(|(name, words, answer)| {
            let mut told = answer.clone();
            told[1] = i64::MIN;
            let long = [&told[..], &[i64::MAX, -1]].concat();
            [
                check(format!("{name}, its answer"), &words, &answer),
                check(format!("{name}, another word 1 and a tail"), &words, &long),
            ]
        })
        .collect()
}

/// x from 1 to 3 and y free, row x + 2y at most 9.
fn point_problem() -> Vec<i32> {
    Draft::new(2, &[&[1, 2]], &[between(1, 3), FREE, at_most(9)]).words()
}

fn points() -> Vec<Vector> {
    let tried: [(&str, i64, [i64; 3]); 11] = [
        ("the solver's point", 1, [1, 0, 1]),
        ("another point", 1, [3, 3, 9]),
        ("a point over 2", 2, [3, -7, -11]),
        (
            "the same point over the largest number",
            LARGEST_NUMBER,
            [LARGEST_NUMBER, 0, LARGEST_NUMBER],
        ),
        ("x one below its limit", 1, [0, 0, 0]),
        ("x one above its limit", 1, [4, 0, 4]),
        ("the row above its limit", 1, [3, 4, 11]),
        ("the row's sum one more", 1, [1, 0, 2]),
        ("the row's sum one less", 1, [1, 0, 0]),
        ("x half above its limit", 2, [7, 0, 7]),
        ("x just below its limit", LARGEST_NUMBER, [LARGEST_NUMBER - 1, 0, LARGEST_NUMBER - 1]),
    ];
    let words = point_problem();
    tried.map(|(name, over, numbers)| check(name, &words, &can(over, &numbers))).into()
}

fn conflicts() -> Vec<Vector> {
    let one_side = Draft::new(2, &[&[1, 1]], &[at_least(2), at_least(2), at_most(3)]).words();
    let even = Draft::new(2, &[&[1, 1]], &[at_least(2), at_least(1), at_most(3)]).words();
    let both = Draft::new(2, &[&[1, 1]], &[between(2, 9), between(2, 2), at_most(3)]).words();
    let most = LARGEST_NUMBER;
    vec![
        check("multipliers of the solver", &one_side, &cannot(&[1, 1, 0], &[0, 0, 1])),
        check("scaled multipliers", &one_side, &cannot(&[7, 7, 0], &[0, 0, 7])),
        check("scaled to the largest", &one_side, &cannot(&[most, most, 0], &[0, 0, most])),
        check("both sides of y", &both, &cannot(&[1, 4, 0], &[0, 3, 1])),
        check("both sides of x, total 0", &both, &cannot(&[8, 1, 0], &[1, 1, 7])),
        check("both sides of x cost too much", &both, &cannot(&[2, 1, 0], &[1, 0, 1])),
        check("an idle pair on y", &both, &cannot(&[1, 2, 0], &[0, 1, 1])),
        check("a total of exactly 0", &even, &cannot(&[1, 1, 0], &[0, 0, 1])),
        check("no multipliers", &one_side, &cannot(&[0; 3], &[0; 3])),
        check("column 0 does not cancel", &one_side, &cannot(&[2, 1, 0], &[0, 0, 1])),
        check("column 1 does not cancel", &one_side, &cannot(&[1, 2, 0], &[0, 0, 1])),
        check("a multiplier on a missing upper", &one_side, &cannot(&[2, 1, 0], &[1, 0, 1])),
        check("a multiplier on a missing lower", &one_side, &cannot(&[1, 1, 1], &[0, 0, 2])),
        check("negative multipliers", &one_side, &cannot(&[-1, -1, 0], &[0, 0, -1])),
    ]
}

/// Numbers at each bound and one past it.
fn bounds() -> Vec<Vector> {
    let flat = Draft::new(1, &[&[1]], &[FREE, FREE]).words();
    let steep = Draft::new(1, &[&[1_000]], &[FREE, FREE]).words();
    let wide = Draft::new(8, &[&[1_000; 8]], &[FREE; 9]).words();
    let pair = Draft::new(1, &[], &[between(1, 0)]).words();
    let mut vectors = Vec::new();
    for number in [LARGEST_NUMERATOR, LARGEST_NUMERATOR + 1, i64::MAX] {
        for sign in [1, -1] {
            let number = sign * number;
            let name = format!("numerators {number}");
            vectors.push(check(name, &flat, &can(1, &[number, number])));
        }
    }
    let most = LARGEST_NUMERATOR / 1_000;
    for number in [most, most + 1, i64::MIN, i64::MAX] {
        let numbers = [number, number.wrapping_mul(1_000)];
        vectors.push(check(format!("a steep row at {number}"), &steep, &can(1, &numbers)));
    }
    for number in [LARGEST_NUMERATOR, i64::MAX] {
        let name = format!("eight numerators {number}");
        vectors.push(check(name, &wide, &can(1, &[number; 9])));
    }
    for number in [LARGEST_NUMBER, LARGEST_NUMBER + 1, i64::MAX, i64::MIN] {
        let name = format!("multipliers {number}");
        vectors.push(check(name, &pair, &cannot(&[number], &[number])));
    }
    vectors
}

/// Verdicts and denominators that are none.
fn heads() -> Vec<Vector> {
    let words = point_problem();
    let mut vectors = Vec::new();
    for verdict in [0, 2, 3, -1, 4, i64::MIN, i64::MAX] {
        let mut answer = can(1, &[1, 0, 1]);
        answer[0] = verdict;
        vectors.push(check(format!("verdict {verdict} on a point"), &words, &answer));
    }
    for over in [0, -1, LARGEST_NUMBER + 1, i64::MIN, i64::MAX] {
        let number = over.clamp(-LARGEST_NUMERATOR, LARGEST_NUMERATOR);
        let answer = can(over, &[number, 0, number]);
        vectors.push(check(format!("denominator {over}"), &words, &answer));
    }
    let crossed = Draft::new(1, &[], &[between(1, 0)]).words();
    for word in [1, -1, i64::MIN] {
        let answer = [2, 0, word, 1, 1];
        vectors.push(check(format!("cannot with {word} in word 2"), &crossed, &answer));
    }
    vectors
}

/// Each word of a right answer changed by one, and by the extremes.
fn bent() -> Vec<Vector> {
    let mut vectors = Vec::new();
    for letter in ["A", "C", "D", "F"] {
        let cases = worked::limits();
        let case = cases.iter().find(|case| case.name == letter).expect("it is a case");
        for place in 0..case.answer.len() {
            let right = case.answer[place];
            let mut put = vec![right + 1, right - 1];
            if letter == "A" || letter == "F" {
                put.extend([i64::MIN, i64::MAX]);
            }
            for word in put {
                let mut answer = case.answer.clone();
                answer[place] = word;
                let name = format!("{letter}, word {place} is {word} for {right}");
                vectors.push(check(name, &case.words, &answer));
            }
        }
    }
    vectors
}

/// Refusals by the problem and by the answer's length.
fn refused() -> Vec<Vector> {
    let answer = [1, 0, 1, 0, 0, 0, 0];
    let limits = |kind, lower, upper| Draft::new(1, &[&[1]], &[FREE, [kind, lower, upper]]).words();
    let mut steep = limits(0, 0, 0);
    steep[2] = 1_001;
    let blank = |kind, lower| Draft::new(1, &[&[0]], &[FREE, [kind, lower, 0]]).words();
    vec![
        check("no words", &[], &answer),
        check("one word", &[1], &[]),
        check("n 0", &[0, 0], &answer),
        check("m 25", &[1, 25], &answer),
        check("another length", &[1, 1], &answer),
        check("coefficient 1,001", &steep, &answer),
        check("kind 4", &limits(4, 0, 0), &answer),
        check("limit 30,001", &limits(1, 30_001, 0), &answer),
        check("a missing limit with a number", &limits(1, 0, 5), &answer),
        check("a blank row", &blank(0, 0), &answer),
        check("a blank row and limit 30,001", &blank(1, 30_001), &answer),
        check("a blank row and an answer one word short", &blank(0, 0), &answer[..6]),
        check("an answer one word short", &limits(0, 0, 0), &answer[..6]),
        check("no answer", &limits(0, 0, 0), &[]),
        check("an answer just long enough", &limits(0, 0, 0), &answer),
        check("kind 4 and no answer", &limits(4, 0, 0), &[]),
    ]
}
