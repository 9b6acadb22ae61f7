//! `scatterflock times`: an answer about time rows.

mod as_page;

use crate::fraction::Fraction;
use crate::input::{self, bad, Content, Input};
use crate::options::Options;
use crate::problem::left_out;
use crate::table::table;
use crate::{json, Ended, Failure, CAN, CANNOT};
use scatterflock::{check_times, Fractions, Judgement, Schedule, TimesRefusal};
use std::ffi::OsStr;
use std::io::Read;
use text::times::{self, Row, Times};
use text::{Exact, Fault};

/// What is asked.
struct Asked {
    file: String,
    digest: String,
    text: Option<String>,
    rows: Times,
}

pub fn run(file: &OsStr, options: &Options, stdin: &mut dyn Read) -> Result<Ended, Failure> {
    let input = input::problem(file, stdin)?;
    let (text, digest) = (input.text(), input.digest.clone());
    let (file, rows) = rows(input)?;
    let asked = Asked { file, digest, text, rows };
    let rows = &asked.rows;
    let words = rows.words();
    let schedule = scatterflock::times(&words).map_err(refused)?;
    let evidence = schedule.evidence(rows.names.len());
    if check_times(&words, &evidence) != Ok(Judgement::Accepted) {
        return Err(Failure::Contradicted);
    }
    if options.words {
        let status = if evidence[0] == 1 { CAN } else { CANNOT };
        let evidence: Vec<String> = evidence.iter().map(i64::to_string).collect();
        return Ok(Ended::saying(evidence.join(" ") + "\n", status));
    }
    if let Some(times) = schedule.fractions() {
        return match rows.rows.iter().all(|row| is_met(row, &times)) {
            true if options.json => Ok(can_json(&asked, &times)),
            true if options.page => Ok(as_page::can(&asked, &times)),
            true => Ok(can(&asked, &times)),
            false => Err(Failure::Contradicted),
        };
    }
    match schedule {
        Schedule::Cycle(cycle) if is_cycle(rows, &cycle) => {
            Ok(match (options.json, options.page) {
                (true, _) => cannot_json(&asked, &cycle),
                (false, true) => as_page::cannot(&asked, &cycle),
                (false, false) => cannot(&asked, &cycle),
            })
        }
        _ => Err(Failure::Contradicted),
    }
}

/// The time rows of a file; their words are not refused.
pub fn rows(input: Input) -> Result<(String, Times), Failure> {
    let Input { file, content, .. } = input;
    let words = match content {
        Content::Text(text) => {
            let rows = times::read(&text).map_err(|fault| bad(&file, &text, fault))?;
            return Ok((file, rows));
        }
        Content::Smtlib(bytes) => {
            let what = "these are limits, not time rows: scatterflock solve answers them";
            let fault = Fault { line: 1, column: 1, what: what.to_string() };
            return Err(bad(&file, &String::from_utf8_lossy(&bytes), fault));
        }
        Content::Words(words) => words,
        Content::Bytes(bytes) if bytes.len() < 8 => return Err(refused(TimesRefusal::FewWords)),
        Content::Bytes(bytes) if bytes.len() % 4 != 0 => return Err(refused(TimesRefusal::Length)),
        Content::Bytes(bytes) => input::words(&bytes),
    };
    scatterflock::times(&words).map_err(refused)?;
    let rows = Times::from_words(&words).expect("the words are not refused");
    Ok((file, rows))
}

fn refused(refusal: TimesRefusal) -> Failure {
    Failure::Refused { number: refusal.number(), what: refusal.to_string(), notes: vec![] }
}

/// A number of parts of a minute, over the denominator of the times, in minutes.
fn minutes(rows: &Times, numerator: i64, times: &Fractions) -> Fraction {
    Fraction::new(numerator.into(), i128::from(times.over) * i128::from(rows.parts))
}

/// How many parts of a minute are left in a row, over the denominator of the
/// times.
fn spare(row: &Row, times: &Fractions) -> i64 {
    let [x, y] = [row.x, row.y].map(|point| times.numerators[point]);
    i64::from(row.c) * times.over - (x - y)
}

/// Whether the times meet a row, a strict one strictly.
fn is_met(row: &Row, times: &Fractions) -> bool {
    spare(row, times) >= i64::from(row.is_strict)
}

/// What the rows come to, added up, and whether a strict one is among them.
fn sum(rows: &[&Row]) -> (i64, bool) {
    (rows.iter().map(|row| i64::from(row.c)).sum(), rows.iter().any(|row| row.is_strict))
}

/// The sign of a row, or of a sum of rows.
fn sign(is_strict: bool) -> &'static str {
    if is_strict {
        "<"
    } else {
        "<="
    }
}

/// Whether these rows lead round, and say that 0 is below 0, or below itself.
fn is_cycle(rows: &Times, cycle: &[usize]) -> bool {
    let listed: Option<Vec<&Row>> = cycle.iter().map(|&row| rows.rows.get(row)).collect();
    let Some(listed) = listed else { return false };
    let next = listed.iter().cycle().skip(1);
    let leads_round = listed.iter().zip(next).all(|(row, next)| row.y == next.x);
    let (sum, is_strict) = sum(&listed);
    leads_round && sum < i64::from(is_strict)
}

/// What the line of a row is called in a column of lines: its name, or its number.
fn called(rows: &Times, row: &Row) -> String {
    let place = place(rows, row).unwrap_or_default();
    place.strip_prefix("line ").map_or(place.clone(), str::to_string)
}

/// `line 3`, where there is one, or what the line is called.
pub fn place(rows: &Times, row: &Row) -> Option<String> {
    let line = row.line?;
    let label = rows.labels.of_line(line);
    Some(label.map_or_else(|| format!("line {line}"), str::to_string))
}

/// What a row is called where it is named: by its line and, where that makes two
/// rows, which of both it is, or by its number.
pub fn reference(rows: &Times, number: usize) -> String {
    let row = &rows.rows[number];
    let makes_two = row.line.is_some_and(|line| rows.of_line(line).len() > 1);
    match place(rows, row) {
        Some(place) if makes_two => format!("{place} {}", row.side().name()),
        Some(place) => place,
        None => format!("row {number}"),
    }
}

/// Rows added up, the names left out where they lead round.
pub fn sum_text(rows: &Times, listed: &[&Row]) -> String {
    let left = |row: &Row| format!("{} - {}", rows.names[row.x], rows.names[row.y]);
    let (sum, is_strict) = sum(listed);
    let shown = |c: i64| Exact::new(c, rows.parts.into()).to_string();
    let wide = listed.iter().map(|row| left(row).len()).max().unwrap_or(0);
    let rights = listed.iter().map(|row| i64::from(row.c)).chain([sum]);
    let right_wide = rights.map(|right| shown(right).len()).max().unwrap_or(0);
    let line = |left: &str, is_strict: bool, right: i64| {
        format!("#   {left:>wide$} {:<2} {}\n", sign(is_strict), shown(right))
    };
    let mut said: String =
        listed.iter().map(|row| line(&left(row), row.is_strict, row.c.into())).collect();
    said += &format!("#   {}\n", "-".repeat(wide + 4 + right_wide));
    said + &line("0", is_strict, sum)
}

fn can(asked: &Asked, times: &Fractions) -> Ended {
    let rows = &asked.rows;
    let time = |numerator: &i64| minutes(rows, *numerator, times);
    let named = rows.names.iter().zip(&times.numerators);
    let values = named.map(|(name, numerator)| vec![format!("{name} = {}", time(numerator))]);
    let mut said = format!("can\n\n{}\n", table("", &values.collect::<Vec<_>>()));
    let far = rows.rows.iter().map(|row| {
        let far = match minutes(rows, spare(row, times), times).to_string().as_str() {
            "0" => "met exactly".to_string(),
            "1" => "1 minute to spare".to_string(),
            spare if spare.contains('/') => format!("{spare} of a minute to spare"),
            spare => format!("{spare} minutes to spare"),
        };
        place(rows, row).into_iter().chain([rows.row_text(row), far]).collect()
    });
    let far: Vec<Vec<String>> = far.collect();
    if !far.is_empty() {
        said += &format!("# How far each row is from being broken:\n{}#\n", table("#   ", &far));
    }
    said += &left_out(asked.text.as_deref(), "rows");
    said += "# Minutes from 0 on. The proved checker of time rows has accepted them.\n";
    Ended::saying(said, CAN)
}

fn cannot(asked: &Asked, cycle: &[usize]) -> Ended {
    let rows = &asked.rows;
    let listed: Vec<&Row> = cycle.iter().map(|&row| &rows.rows[row]).collect();
    let named = listed
        .iter()
        .zip(cycle)
        .map(|(row, &number)| vec![reference(rows, number), format!("# {}", rows.row_text(row))]);
    let mut said = format!("cannot\n\n{}\n", table("", &named.collect::<Vec<_>>()));
    said += &format!("# All of them added up:\n{}#\n", sum_text(rows, &listed));
    said += &left_out(asked.text.as_deref(), "rows");
    said +=
        "# No times meet these rows together. The proved checker of time rows has accepted that.\n";
    Ended::saying(said, CANNOT)
}

fn row_json(rows: &Times, row: &Row) -> Vec<(&'static str, String)> {
    let label = row.line.and_then(|line| rows.labels.of_line(line));
    let name = label.map_or("null".to_string(), json::text);
    vec![("line", json::line(row.line)), ("name", name), ("row", json::text(&rows.row_text(row)))]
}

fn can_json(asked: &Asked, times: &Fractions) -> Ended {
    let Asked { file, text, rows, .. } = asked;
    let values = rows.names.iter().zip(&times.numerators).map(|(name, numerator)| {
        let mut fields = vec![("name", json::text(name))];
        fields.extend(json::number(minutes(rows, *numerator, times)));
        json::inner(&fields)
    });
    let far = rows.rows.iter().map(|row| {
        let mut fields = row_json(rows, row);
        let spare = minutes(rows, spare(row, times), times);
        fields.push(("spare", json::inner(&json::number(spare))));
        json::inner(&fields)
    });
    let fields = [
        ("verdict", json::text("can")),
        ("file", json::text(file)),
        ("times", json::list(values)),
        ("rows", json::list(far)),
        ("left_out", json::left_out(text.as_deref())),
    ];
    Ended::saying(json::object(&fields), CAN)
}

fn cannot_json(asked: &Asked, cycle: &[usize]) -> Ended {
    let Asked { file, text, rows, .. } = asked;
    let listed: Vec<&Row> = cycle.iter().map(|&row| &rows.rows[row]).collect();
    let (sum, is_strict) = sum(&listed);
    let sum = Exact::new(sum, rows.parts.into());
    let fields = [
        ("verdict", json::text("cannot")),
        ("file", json::text(file)),
        ("rows", json::list(listed.iter().map(|row| json::inner(&row_json(rows, row))))),
        ("sum", json::text(&format!("0 {} {sum}", sign(is_strict)))),
        ("left_out", json::left_out(text.as_deref())),
    ];
    Ended::saying(json::object(&fields), CANNOT)
}
