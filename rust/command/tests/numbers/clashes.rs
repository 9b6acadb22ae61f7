//! Numbers of a "cannot": multipliers that are added up, limits that are loosened,
//! and values without each limit.

use super::fraction::{decimal, fraction, is_equal, plus, times_of, Fraction};
use super::json::Json;
use super::met::{all_limits, room, value};
use super::ran;
use text::limits::{Limits, Side};

type At = (usize, Side);

/// The limit that a member of a list is about.
fn limit(problem: &Limits, json: &Json) -> At {
    let (said, side) = (json.at("limit").text(), json.at("side").text());
    let line = match json.at("line") {
        Json::Null => None,
        line => Some(line.number() as usize),
    };
    let found = all_limits(problem).into_iter().find(|&(variable, other)| {
        let limit = problem.limits[variable][other as usize].unwrap();
        let text = problem.limit_text(variable, other).unwrap();
        other.name() == side && text == said && limit.line == line
    });
    found.unwrap_or_else(|| panic!("there is no limit {json:?}"))
}

fn is_strict(problem: &Limits, (variable, side): At) -> bool {
    problem.limits[variable][side as usize].unwrap().is_strict
}

/// A limit's number, below 0 for an upper one, as "at least" has it.
fn number(problem: &Limits, (variable, side): At) -> Fraction {
    let number = problem.limit(variable, side).unwrap();
    let number = (number.numerator.into(), number.denominator.into());
    times_of(if side == Side::Lower { 1 } else { -1 }, number)
}

/// What limits come to, as "at least" and so many times each, and whether one of
/// them is strict. No name is left over, and the sum is a contradiction.
fn sum(problem: &Limits, list: &[Json]) -> (Fraction, bool) {
    let mut left = vec![0; problem.names.len()];
    let mut right = (0, 1);
    let mut strict = false;
    for json in list {
        let (at, times) = (limit(problem, json), i128::from(json.at("times").number()));
        assert!(times > 0, "{json:?}");
        let signed = if at.1 == Side::Lower { times } else { -times };
        for (sum, coefficient) in left.iter_mut().zip(problem.coefficients(at.0)) {
            *sum += signed * i128::from(coefficient);
        }
        right = plus(right, times_of(times, number(problem, at)));
        strict |= is_strict(problem, at);
    }
    assert!(left.iter().all(|&sum| sum == 0), "names are left over: {list:?}");
    assert!(right.0 > 0 || right.0 == 0 && strict, "no contradiction: {list:?}");
    (right, strict)
}

/// Whether values, with their small parts, meet these limits.
fn meet(problem: &Limits, values: &Json, limits: impl Iterator<Item = At>) {
    let values: Vec<[Fraction; 2]> = values.list().iter().map(value).collect();
    let part = |part: usize| values.iter().map(|value| value[part]).collect::<Vec<Fraction>>();
    let (plain, small) = (part(0), part(1));
    for at in limits {
        let far = room(problem, at, &plain).0;
        // The small part alone: what the limit's own number comes to is taken out.
        let none = vec![(0, 1); values.len()];
        let by = plus(room(problem, at, &small), times_of(-1, room(problem, at, &none))).0;
        let is_met = far > 0 || far == 0 && (by > 0 || by == 0 && !is_strict(problem, at));
        assert!(is_met, "{at:?} is broken by {values:?}");
    }
}

/// Puts all numbers of a clash into the limits. Says whether there is one.
pub fn look_at_clash(text: &str, problem: &Limits) -> bool {
    let json = ran(&["--json", "solve", "--each", "-"], text);
    if json.at("verdict") != &Json::Text("cannot".to_string()) {
        return false;
    }
    let list = json.at("limits").list();
    let named: Vec<At> = list.iter().map(|json| limit(problem, json)).collect();
    let (right, strict) = sum(problem, list);
    let start = if strict { "0 > " } else { "0 >= " };
    let said = json.at("sum").text().strip_prefix(start).map(decimal);
    assert!(said.is_some_and(|said| is_equal(said, right)), "{text}: {json:?}");
    for (json, &at) in list.iter().zip(&named) {
        // With the limit loosened so far, the sum is 0: no contradiction unless it is strict.
        let loosened = json.at("loosened");
        let to = fraction(loosened);
        let to = if at.1 == Side::Lower { to } else { times_of(-1, to) };
        let less = plus(number(problem, at), times_of(-1, to));
        assert!(is_equal(times_of(json.at("times").number().into(), less), right), "{text}");
        let small = fraction(loosened.at("small")).0;
        let beyond = if at.1 == Side::Lower { -1 } else { 1 };
        assert_eq!(small, if strict { beyond } else { 0 }, "{text}");
        value(loosened);
        if json.at("without") != &Json::Null {
            meet(problem, json.at("without"), named.iter().copied().filter(|&other| other != at));
        }
        let rest = json.at("rest");
        match rest.at("verdict").text() {
            "can" => {
                let others = all_limits(problem).into_iter().filter(|&other| other != at);
                meet(problem, rest.at("values"), others);
            }
            "cannot" => {
                let still = rest.at("limits").list();
                assert!(still.iter().all(|json| limit(problem, json) != at), "{text}");
                sum(problem, still);
            }
            verdict => assert_eq!(verdict, "range", "{text}"),
        }
    }
    true
}
