//! An answer to time rows, anybody's, before the proved checker of time rows.

use super::{judged, Why};
use crate::fraction::{Fraction, Pair};
use crate::input::{any_text, bad, Input};
use crate::options::Options;
use crate::times::{place, reference, rows, sum_text};
use crate::{Ended, Failure};
use scatterflock::{check_times, Judgement, TimesRefusal};
use std::collections::HashSet;
use std::ffi::OsStr;
use std::io::Read;
use text::answer::{read_times, TimesAnswer};
use text::times::{Row, Times};

pub fn run(
    input: Input,
    answer: &OsStr,
    options: &Options,
    stdin: &mut dyn Read,
) -> Result<Ended, Failure> {
    if options.wide {
        return Err(Failure::Usage("--wide is about limits, and these are time rows".to_string()));
    }
    let (_, rows) = rows(input)?;
    let (name, text) = any_text(answer, stdin)?;
    let answer = read_times(&text, &rows).map_err(|fault| bad(&name, &text, fault))?;
    let words = &answer.words;
    let judgement = check_times(&rows.words(), words).map_err(|refusal| Failure::Refused {
        number: refusal.number(),
        what: match refusal {
            TimesRefusal::Short => format!("the answer has {} words, and too few", words.len()),
            refusal => refusal.to_string(),
        },
        notes: vec![],
    })?;
    let shown = match words[0] {
        1 => "these times meet all rows",
        _ => "these rows cannot be met together",
    };
    let why = (judgement != Judgement::Accepted).then(|| why(&rows, &answer));
    Ok(judged("checker of time rows", shown, why, options.json))
}

/// Of an answer that has as many words as are looked at.
fn why(rows: &Times, answer: &TimesAnswer) -> Why {
    let TimesAnswer { words, small } = answer;
    match words[0] {
        1 => why_not_times(rows, words, *small),
        2 => why_not_cycle(rows, words),
        other => {
            Why::new(&format!("Its first word is {other}: 1 is \"can\", 2 is \"cannot\"."), vec![])
        }
    }
}

fn why_not_times(rows: &Times, words: &[i64], small: Option<i64>) -> Why {
    let count = rows.names.len();
    if words[1] != count as i64 {
        let what = format!("Its second word is {}, and there are {count} times.", words[1]);
        return Why::new(&what, vec![]);
    }
    let (whole, left) = words[2..2 + 2 * count].split_at(count);
    let broken = rows.rows.iter().filter_map(|row| {
        let apart = |part: &[i64]| i128::from(part[row.x]) - i128::from(part[row.y]);
        let over = [apart(whole) - i128::from(row.c), apart(left)];
        let by = broken_by(over, row.is_strict, rows.parts.into(), small)?;
        Some(place(rows, row).into_iter().chain([rows.row_text(row), by]).collect())
    });
    Why::new("These times break", broken.collect())
}

/// By how much times are farther apart than a row allows, where they are: of whole
/// parts of a minute and of small amounts.
fn broken_by(
    [whole, left]: [i128; 2],
    is_strict: bool,
    parts: i128,
    small: Option<i64>,
) -> Option<String> {
    if [whole, left] < [0, i128::from(!is_strict)] {
        return None;
    }
    let exact = "met exactly, and it is strict".to_string();
    let minutes = |number: String| match number.as_str() {
        "1" => "by 1 minute".to_string(),
        number if number.contains('/') => format!("by {number} of a minute"),
        number => format!("by {number} minutes"),
    };
    Some(match (small, whole, left) {
        (_, 0, 0) => exact,
        (_, _, 0) => minutes(Fraction::new(whole, parts).to_string()),
        (Some(small), ..) => {
            let small = i128::from(small);
            minutes(Fraction::new(small * whole + left, small * parts).to_string())
        }
        (None, 0, _) => "by a small amount".to_string(),
        (None, ..) => format!("by {} minutes", Pair::new([whole, left], parts)),
    })
}

fn why_not_cycle(rows: &Times, words: &[i64]) -> Why {
    let (count, most) = (words[1], rows.names.len());
    if !(1..=most as i64).contains(&count) {
        let what = format!("It has {count} rows, and has to have from 1 to {most}.");
        return Why::new(&what, vec![]);
    }
    let (listed, rest) = words[2..2 + 2 * most].split_at(count as usize);
    let number = |&word: &i64| usize::try_from(word).ok().filter(|&row| row < rows.rows.len());
    if let Some(other) = listed.iter().find(|&word| number(word).is_none()) {
        return Why::new(&format!("There is no row {other}."), vec![]);
    }
    if rest.iter().any(|&word| word != 0) {
        return Why::new("Behind its rows a word is not 0.", vec![]);
    }
    let listed: Vec<usize> = listed.iter().filter_map(number).collect();
    let cycle: Vec<&Row> = listed.iter().map(|&row| &rows.rows[row]).collect();
    let next = cycle.iter().cycle().skip(1);
    let apart = cycle.iter().zip(next).zip(&listed).filter(|((row, next), _)| row.y != next.x);
    let apart = apart.map(|((row, next), &number)| {
        let [end, start] = [row.y, next.x].map(|point| &rows.names[point]);
        let leads = format!("leads to {end}, and the next from {start}");
        vec![reference(rows, number), rows.row_text(row), leads]
    });
    let apart: Vec<Vec<String>> = apart.collect();
    if !apart.is_empty() {
        return Why::new("Its rows do not lead round:", apart);
    }
    let mut seen = HashSet::new();
    if let Some(row) = cycle.iter().find(|row| !seen.insert(row.x)) {
        let what = format!("Two of its rows lead from {}.", rows.names[row.x]);
        return Why::new(&what, vec![]);
    }
    let what = "Added up they are no contradiction:".to_string();
    Why { what, rows: vec![], sum: sum_text(rows, &cycle) }
}
