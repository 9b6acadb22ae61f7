//! `scatterflock audit`: the totals of all bodies of a day's file.

mod as_page;

use crate::day::read;
use crate::digest::digest;
use crate::input;
use crate::options::Options;
use crate::table::table;
use crate::{json, Ended, Failure, CAN, REFUSED};
use progress::Progress;
use scatterflock::{Named, Sheet};
use std::ffi::OsStr;
use std::io::Read;

pub fn run(file: &OsStr, options: &Options, stdin: &mut dyn Read) -> Result<Ended, Failure> {
    let (name, bytes) = input::bytes(file, stdin)?;
    if options.bare {
        let text = scatterflock::sheet(&bytes);
        let status = if text.starts_with("refused") { REFUSED } else { CAN };
        return Ok(Ended::saying(text, status));
    }
    let bundle = read(&bytes)?;
    if options.page {
        return as_page::page(&name, &digest(&bytes), &bundle);
    }
    let line = Progress::begun(&format!("audit: {} bodies", bundle.bodies().count()));
    let (edition, sheet) = (bundle.edition(), bundle.sheet());
    drop(line);
    let said =
        if options.json { as_json(&name, edition, &sheet) } else { as_text(edition, &sheet) };
    Ok(Ended::saying(said, CAN))
}

/// The lines of the sheet, and beside each what it says.
fn as_text(edition: u32, sheet: &Sheet) -> String {
    let text = sheet.to_string();
    let rows = text.lines().zip(words(edition, sheet));
    let rows: Vec<Vec<String>> = rows.map(|(line, words)| vec![line.to_string(), words]).collect();
    table("", &rows)
}

/// Words for each line of the sheet, in its order.
fn words(edition: u32, sheet: &Sheet) -> Vec<String> {
    let mut words = vec![
        format!("bodies of the file, edition {edition}; each is counted in one of the next lines"),
        "all limits can be met at once".to_string(),
        "the limits clash".to_string(),
        "a number became too large: whether the limits clash is not known".to_string(),
    ];
    words.extend(sheet.refused.iter().map(|(refusal, _)| format!("refused: {refusal}")));
    words.push("pivots of all answers together".to_string());
    words.push(match sheet.reached {
        Some(_) => "the most pivots of one answer, and the first body that has so many".to_string(),
        None => "no body has an answer".to_string(),
    });
    words.extend(sheet.named.iter().enumerate().map(named_words));
    words
}

fn named_words((variable, named): (usize, &Named)) -> String {
    match named {
        Named { lower: 0, upper: 0 } => format!("no clash names a limit of variable {variable}"),
        Named { lower, upper } => format!(
            "clashes that name the lower limit of variable {variable}: {lower}, the upper: {upper}"
        ),
    }
}

fn as_json(file: &str, edition: u32, sheet: &Sheet) -> String {
    let refused = sheet.refused.iter().map(|(refusal, count)| {
        json::inner(&[("number", refusal.number().to_string()), ("count", count.to_string())])
    });
    let named = sheet.named.iter().enumerate().map(|(variable, Named { lower, upper })| {
        json::inner(&[
            ("variable", variable.to_string()),
            ("lower", lower.to_string()),
            ("upper", upper.to_string()),
        ])
    });
    let body = sheet.reached.map_or("null".to_string(), |body| body.to_string());
    json::object(&[
        ("file", json::text(file)),
        ("edition", edition.to_string()),
        ("bodies", sheet.bodies.to_string()),
        ("can", sheet.can.to_string()),
        ("cannot", sheet.cannot.to_string()),
        ("range", sheet.range.to_string()),
        ("refused", json::list(refused)),
        ("pivots", sheet.pivots.to_string()),
        ("largest", sheet.largest.to_string()),
        ("body", body),
        ("named", json::list(named)),
    ])
}
