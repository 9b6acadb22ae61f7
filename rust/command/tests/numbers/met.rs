//! Numbers of a "can", put into the limits and the time rows.

use super::fraction::{decimal, fraction, is_equal, plus, product, times_of, Fraction};
use super::json::Json;
use super::ran;
use text::limits::{Limits, Side};
use text::times::Times;

/// A value: its plain part, and its small one. Its decimal is the plain part
/// where it is said to be exact, and then there is no small one.
pub fn value(json: &Json) -> [Fraction; 2] {
    let (plain, small) = (fraction(json), fraction(json.at("small")));
    let is_decimal = is_equal(decimal(json.at("decimal").text()), plain);
    let is_exact = is_decimal && small.0 == 0;
    assert_eq!(json.at("exact"), if is_exact { &Json::True } else { &Json::False }, "{json:?}");
    [plain, small]
}

/// How far values are inside of a limit.
pub fn room(problem: &Limits, (variable, side): (usize, Side), values: &[Fraction]) -> Fraction {
    let number = problem.limit(variable, side).unwrap();
    let number = (number.numerator.into(), number.denominator.into());
    let terms = problem.coefficients(variable).into_iter().zip(values);
    let sum = terms.fold((0, 1), |sum, (by, &value)| plus(sum, times_of(by.into(), value)));
    let room = plus(sum, times_of(-1, number));
    if side == Side::Lower {
        room
    } else {
        times_of(-1, room)
    }
}

pub fn all_limits(problem: &Limits) -> Vec<(usize, Side)> {
    let both =
        (0..problem.limits.len()).flat_map(|variable| Side::BOTH.map(|side| (variable, side)));
    both.filter(|(variable, side)| problem.limits[*variable][*side as usize].is_some()).collect()
}

fn is_met(problem: &Limits, limit: (usize, Side), values: &[Fraction]) -> bool {
    let room = room(problem, limit, values).0;
    room > 0 || room == 0 && !problem.limits[limit.0][limit.1 as usize].unwrap().is_strict
}

/// Puts all numbers of an answer into the limits. Says whether it has small parts.
pub fn look(text: &str, problem: &Limits) -> Option<bool> {
    let json = ran(&["--json", "solve", "-"], text);
    if json.at("verdict") != &Json::Text("can".to_string()) {
        return None;
    }
    let limits = all_limits(problem);
    let named = |list: &Json| {
        let names: Vec<&str> = list.list().iter().map(|one| one.at("name").text()).collect();
        assert_eq!(names, problem.names);
        list.list().iter().map(value).collect::<Vec<[Fraction; 2]>>()
    };
    let values = named(json.at("values"));
    let has_small = values.iter().any(|value| value[1].0 != 0);
    for (variable, value) in values.iter().enumerate() {
        if json.at("values").list()[variable].at("exact") == &Json::True {
            let mut alone = vec![(0, 1); values.len()];
            alone[variable] = value[0];
            for limit in limits.iter().filter(|limit| limit.0 == variable) {
                assert!(
                    is_met(problem, *limit, &alone),
                    "an exact number breaks {limit:?}: {text}"
                );
            }
        }
    }
    let put = |amount: Fraction| {
        let put = values.iter().map(|[plain, small]| plus(*plain, product(*small, amount)));
        put.collect::<Vec<Fraction>>()
    };
    let below = match json.at("small_below") {
        Json::Null => (2, 1),
        end => fraction(end),
    };
    let amount = (below.0, 2 * below.1);
    for &limit in &limits {
        assert!(is_met(problem, limit, &put(amount)), "half of small_below: {text}");
    }
    match json.at("example") {
        Json::Null => assert!(!has_small, "there is no example: {text}"),
        example => {
            let example: Vec<Fraction> = named(example).iter().map(|value| value[0]).collect();
            assert!(has_small && limits.iter().all(|&limit| is_met(problem, limit, &example)));
        }
    }
    let mut shown = json.at("limits").list().to_vec();
    for (variable, side) in limits {
        let (name, said) = (side.name(), problem.limit_text(variable, side).unwrap());
        let place = shown
            .iter()
            .position(|limit| limit.at("side").text() == name && limit.at("limit").text() == said);
        let limit = shown.remove(place.unwrap_or_else(|| panic!("{said} is not shown: {text}")));
        let spare = value(limit.at("spare"));
        for (part, amount) in [(0, (0, 1)), (1, (1, 1))] {
            let of = plus(room(problem, (variable, side), &put(amount)), times_of(-1, spare[0]));
            assert!(is_equal(of, times_of(part, spare[1])), "spare of {said}: {text}");
        }
    }
    assert!(shown.is_empty(), "{text}");
    Some(has_small)
}

/// The same of time rows.
pub fn look_at_times(text: &str, rows: &Times) -> bool {
    let json = ran(&["--json", "times", "-"], text);
    if json.at("verdict") != &Json::Text("can".to_string()) {
        return false;
    }
    let times: Vec<Fraction> = json.at("times").list().iter().map(|time| value(time)[0]).collect();
    for (row, shown) in rows.rows.iter().zip(json.at("rows").list()) {
        let difference = plus(times[row.x], times_of(-1, times[row.y]));
        let spare = plus((row.c.into(), 1), times_of(-1, difference));
        assert!(spare.0 > 0 || spare.0 == 0 && !row.is_strict, "{text}");
        assert!(is_equal(value(shown.at("spare"))[0], spare), "{text}");
    }
    true
}
