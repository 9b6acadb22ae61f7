//! `scatterflock check`: an answer, anybody's, before the proved checker.
//!
//! - `of_times`: an answer to time rows

mod of_times;

use crate::clash::{counted, left_sum, reference, sum_text};
use crate::fraction::Pair;
use crate::input::{self, any_text, bad, Content};
use crate::options::Options;
use crate::problem::{all_limits, place, problem, refused_words, Values};
use crate::table::table;
use crate::{json, Ended, Failure, CAN, CANNOT};
use scatterflock::{Judgement, Refusal};
use std::ffi::OsStr;
use std::io::Read;
use text::limits::{Limits, Side};
use text::Holds;

/// The largest denominator and multiplier, the largest numerator and the largest
/// small part.
struct Largest {
    number: i128,
    numerator: i128,
    small: i128,
}

/// What the checker takes.
const NARROW: Largest = Largest {
    number: 2_147_483_647,
    numerator: 515_396_075_280_000,
    small: scatterflock::sizes::LARGEST_SMALL as i128,
};

/// Of wide evidence, what is looked at beside its checker, which takes more.
const WIDE: Largest = Largest { number: 1 << 95, numerator: 1 << 112, small: 1 << 112 };

pub fn run(
    file: &OsStr,
    answer: &OsStr,
    options: &Options,
    stdin: &mut dyn Read,
) -> Result<Ended, Failure> {
    let is_wide = options.wide;
    let input = input::problem(file, stdin)?;
    let holds_times =
        matches!(&input.content, Content::Text(text) if Holds::of(text) == Some(Holds::Times));
    if options.times || holds_times {
        return of_times::run(input, answer, options, stdin);
    }
    let (_, problem) = problem(input)?;
    let (name, text) = any_text(answer, stdin)?;
    let words = text::answer::read(&text, &problem).map_err(|fault| bad(&name, &text, fault))?;
    let words = match is_wide && !text::numbers::are_bare(&text) {
        true => scatterflock::widened(&words),
        false => words,
    };
    let judgement = match is_wide {
        true => scatterflock::check_wide(&problem.words(), &words),
        false => scatterflock::check(&problem.words(), &words),
    };
    let judgement = judgement.map_err(|refusal| match refusal {
        Refusal::Short => Failure::Refused {
            number: refusal.number(),
            what: format!("the answer has {} words, and too few", words.len()),
            notes: vec![],
        },
        refusal => refused_words(&problem, refusal),
    })?;
    let why = (judgement != Judgement::Accepted).then(|| match is_wide {
        true => why_wide(&problem, &words),
        false => why_narrow(&problem, &words),
    });
    let shown = match words[0] {
        1 => "these values meet all limits",
        _ => "these limits, so many times each, cannot be met together",
    };
    let checker = if is_wide { "checker of wide evidence" } else { "checker" };
    Ok(judged(checker, shown, why, options.json))
}

/// What a checker says of an answer: what is shown by it, or why it is not
/// accepted.
fn judged(checker: &str, shown: &str, why: Option<Why>, is_json: bool) -> Ended {
    let Some(Why { what, rows, sum }) = why else {
        let said = match is_json {
            true => json::object(&[("accepted", true.to_string())]),
            false => format!("accepted\n\n# The proved {checker} says that {shown}.\n"),
        };
        return Ended::saying(said, CAN);
    };
    let said = match is_json {
        true => {
            let listed = rows.iter().map(|row| json::text(&row.join("   ")));
            let fields = [
                ("accepted", false.to_string()),
                ("reason", json::text(&what)),
                ("why", json::list(listed)),
            ];
            json::object(&fields)
        }
        false => format!(
            "not accepted\n\n# The proved {checker} does not take this for evidence. {what}\n{}{sum}",
            table("#   ", &rows)
        ),
    };
    Ended::saying(said, CANNOT)
}

/// Why an answer is not accepted: a sentence, what it is about, and of a
/// "cannot" the sum that is left. The checker says yes or no; this is worked out
/// beside it, by its rules.
struct Why {
    what: String,
    rows: Vec<Vec<String>>,
    sum: String,
}

impl Why {
    fn new(what: &str, rows: Vec<Vec<String>>) -> Why {
        Why { what: what.to_string(), rows, sum: String::new() }
    }
}

fn why_narrow(problem: &Limits, words: &[i64]) -> Why {
    let numbers: Vec<i128> = words[2..].iter().map(|&word| word.into()).collect();
    why(problem, words[0], &numbers, &NARROW)
}

fn why_wide(problem: &Limits, words: &[i64]) -> Why {
    let count = 1 + 2 * problem.limits.len();
    let read = |limbs: &[i64]| {
        let number = limbs.iter().rev().fold(0, |above, &limb| (above << 32) | i128::from(limb));
        let is_right = limbs[..3].iter().all(|limb| (0..1 << 32).contains(limb))
            && (-(1 << 31)..1 << 31).contains(&limbs[3]);
        is_right.then_some(number)
    };
    let numbers: Option<Vec<i128>> = words[2..2 + 4 * count].chunks(4).map(read).collect();
    let Some(numbers) = numbers else {
        let what = "A word of its numbers is out of range: of four, three are from 0 to \
                    4294967295 and the last from -2147483648 to 2147483647.";
        return Why::new(what, vec![]);
    };
    why(problem, words[0], &numbers, &WIDE)
}

/// Of the verdict and the numbers behind the count of pivots.
fn why(problem: &Limits, verdict: i64, numbers: &[i128], largest: &Largest) -> Why {
    let count = problem.limits.len();
    let (first, second) = numbers[1..1 + 2 * count].split_at(count);
    match verdict {
        1 => why_not_can(problem, numbers[0], [first, second], largest),
        2 => why_not_cannot(problem, numbers[0], [first, second], largest),
        other => {
            Why::new(&format!("Its first word is {other}: 1 is \"can\", 2 is \"cannot\"."), vec![])
        }
    }
}

fn why_not_can(
    problem: &Limits,
    over: i128,
    [plain, small]: [&[i128]; 2],
    largest: &Largest,
) -> Why {
    if !(1..=largest.number).contains(&over) {
        let number = largest.number;
        let what = format!("Its denominator is {over}, and has to be from 1 to {number}.");
        return Why::new(&what, vec![]);
    }
    let is_beyond = |part: i128, most: i128| !(-most..=most).contains(&part);
    let beyond = (0..plain.len()).filter(|&variable| {
        is_beyond(plain[variable], largest.numerator) || is_beyond(small[variable], largest.small)
    });
    let beyond: Vec<Vec<String>> = beyond.map(|variable| vec![problem.left(variable)]).collect();
    if !beyond.is_empty() {
        return Why::new("Too large for it are the numbers of", beyond);
    }
    let values = Values { problem, over, plain, small };
    let other = (0..problem.rows.len()).filter_map(|row| {
        let sum_of = |part: &[i128]| {
            let terms = problem.rows[row].iter().zip(part);
            terms.map(|(coefficient, value)| i128::from(*coefficient) * value).sum::<i128>()
        };
        let variable = problem.names.len() + row;
        let (said, sum) = (
            values.at(variable),
            Pair::new([sum_of(plain), sum_of(small)], over * i128::from(problem.scale(variable))),
        );
        let told =
            || vec![problem.left(variable), format!("is said to be {said}, and comes to {sum}")];
        (said != sum).then(told)
    });
    let other: Vec<Vec<String>> = other.collect();
    if !other.is_empty() {
        return Why::new("Sums are not what is said:", other);
    }
    Why::new("These values break", broken(problem, values))
}

fn why_not_cannot(
    problem: &Limits,
    third: i128,
    multipliers: [&[i128]; 2],
    largest: &Largest,
) -> Why {
    if third != 0 {
        return Why::new(&format!("Its third word is {third}, and 0 in a \"cannot\"."), vec![]);
    }
    let all =
        (0..problem.limits.len()).flat_map(|variable| Side::BOTH.map(|side| (variable, side)));
    let wrong = all.filter_map(|(variable, side)| {
        let times = multipliers[side as usize][variable];
        let is_there = problem.limits[variable][side as usize].is_some();
        let what = match is_there {
            true if !(0..=largest.number).contains(&times) => {
                format!("from 0 to {} times", largest.number)
            }
            false if times != 0 => "there is no such limit".to_string(),
            _ => return None,
        };
        Some(vec![format!("{times} times {}", reference(problem, variable, side)), what])
    });
    let wrong: Vec<Vec<String>> = wrong.collect();
    if !wrong.is_empty() {
        return Why::new("It cannot count", wrong);
    }
    let counted = counted(problem, multipliers);
    let left = left_sum(problem, &counted);
    let what = match left.iter().any(|&number| number != 0) {
        true => "Added up they leave names over, so the sum is no contradiction:",
        false => "Added up they are no contradiction:",
    };
    Why { what: what.to_string(), rows: vec![], sum: sum_text(problem, &counted) }
}

/// The limits that the values break.
fn broken(problem: &Limits, values: Values) -> Vec<Vec<String>> {
    let told = all_limits(problem).into_iter().filter_map(|(variable, side)| {
        let is_strict = problem.limits[variable][side as usize]?.is_strict;
        let spare = values.spare((variable, side));
        let by = match (spare.sign(), spare.plain.numerator) {
            (0, _) if is_strict => "met exactly, and it is strict".to_string(),
            (-1, 0) => "by a small amount".to_string(),
            (-1, _) => format!("by {}", spare.turned()),
            _ => return None,
        };
        let limit = problem.limit_text(variable, side).unwrap_or_default();
        Some(place(problem, variable, side).into_iter().chain([limit, by]).collect())
    });
    told.collect()
}
