//! An answer as a page: one file of HTML, with pictures, that needs nothing else
//! and prints on paper. No script, no font and no picture comes from elsewhere.
//!
//! - `bars`: what the limits of a clash ask for, and what they allow
//! - `bodies`: the bodies of a day's file, a line and a part each
//! - `counts`: how many there are of each kind
//! - `scale`: values between their limits
//! - `timeline`: points in time

use crate::fraction::Fraction;
use std::time::{SystemTime, UNIX_EPOCH};

pub mod bars;
pub mod bodies;
pub mod counts;
pub mod scale;
pub mod timeline;

const STYLE: &str = "\
body{font:16px/1.45 sans-serif;color:#111;max-width:52em;margin:2em auto;padding:0 1em}
h1{font-size:1.5em;margin:0 0 .3em}p{margin:.4em 0}h2{font-size:1.1em;margin:1.6em 0 .4em}h3{font-size:1em;margin:1em 0 .3em}
a{color:inherit}section{border-top:1px solid #111;margin-top:1.6em}
.verdict{border:2px solid #111;border-radius:.3em;padding:0 .4em;margin-left:.5em}
.cannot{background:#111;color:#fff}
table{border-collapse:collapse}td,th{padding:.15em .9em .15em 0;text-align:left;vertical-align:top}
td.n,th.n{text-align:right;font-variant-numeric:tabular-nums}
tr.sum td{border-top:1px solid #111}td:first-child{white-space:nowrap}
pre{font:14px/1.5 monospace;margin:0}pre b{background:#fde9a9;color:#111}
svg{display:block;max-width:100%;height:auto}svg text{font:13px sans-serif;fill:#111}svg text.small{font-size:11px}
footer{margin-top:2em;color:#444;font-size:.9em}
@media print{body{margin:0;max-width:none;font-size:9.5pt;line-height:1.3}pre{font-size:8.5pt}
h2,h3{margin:1em 0 .2em;break-after:avoid}table,svg,pre{break-inside:avoid}footer{margin-top:1em}
pre b,.cannot{-webkit-print-color-adjust:exact;print-color-adjust:exact}}";

/// A text inside of HTML.
pub fn safe(text: &str) -> String {
    let mut safe = String::new();
    for c in text.chars() {
        match c {
            '<' => safe += "&lt;",
            '>' => safe += "&gt;",
            '&' => safe += "&amp;",
            '"' => safe += "&quot;",
            c => safe.push(c),
        }
    }
    safe
}

/// A number as a picture takes it: rounded.
pub fn drawn(number: impl Into<Fraction>) -> f64 {
    let number = number.into();
    number.numerator as f64 / number.denominator as f64
}

/// The day, in the time of Greenwich; that of SOURCE_DATE_EPOCH where it is set.
fn today() -> String {
    let told = std::env::var("SOURCE_DATE_EPOCH").ok().and_then(|told| told.parse().ok());
    let now = SystemTime::now().duration_since(UNIX_EPOCH).map_or(0, |since| since.as_secs());
    day(told.unwrap_or(now) / 86_400)
}

/// A day, by its number from 1970 on. Years are counted from March here, in 400
/// at a time.
fn day(number: u64) -> String {
    let number = number + 719_468;
    let (era, day) = (number / 146_097, number % 146_097);
    let year = (day - day / 1_460 + day / 36_524 - day / 146_096) / 365;
    let day = day - (365 * year + year / 4 - year / 100);
    let month = (5 * day + 2) / 153;
    let (day, month) =
        (day - (153 * month + 2) / 5 + 1, if month < 10 { month + 3 } else { month - 9 });
    let year = 400 * era + year + u64::from(month <= 2);
    format!("{year}-{month:02}-{day:02}")
}

/// Parts of a page, each under its title where it has one.
pub fn under_titles(level: &str, sections: &[(&str, String)]) -> String {
    let said = sections.iter().map(|(title, inner)| match *title {
        "" => inner.clone(),
        title => format!("<{level}>{title}</{level}>\n{inner}"),
    });
    said.collect()
}

/// The whole page of an answer. The digest is that of the file.
pub fn page(file: &str, digest: &str, verdict: &str, sections: &[(&str, String)]) -> String {
    marked(file, digest, (verdict, verdict), &under_titles("h2", sections))
}

/// The whole page, with words beside the name of the file, and how they are shown.
pub fn marked(file: &str, digest: &str, (class, verdict): (&str, &str), said: &str) -> String {
    let file = safe(file);
    let version = env!("CARGO_PKG_VERSION");
    format!(
        "<!doctype html>\n<html lang=\"en\">\n<head>\n<meta charset=\"utf-8\">\n\
         <meta name=\"viewport\" content=\"width=device-width\">\n<title>{file}: {verdict}</title>\n\
         <style>\n{STYLE}\n</style>\n</head>\n<body>\n\
         <h1>{file}<span class=\"verdict {class}\">{verdict}</span></h1>\n{said}\
         <footer>scatterflock {version}, {}. SHA-256 of {file}: <code>{digest}</code></footer>\n</body>\n</html>\n",
        today()
    )
}

/// Rows of cells under heads. A head that begins with `#` is one of numbers.
pub fn cells(heads: &[&str], rows: &[Vec<String>], last_is_sum: bool) -> String {
    let rows = rows.iter().map(|row| row.iter().map(|cell| safe(cell)).collect());
    linked_cells(heads, &rows.collect::<Vec<Vec<String>>>(), last_is_sum)
}

/// The same, of cells that are HTML already.
pub fn linked_cells(heads: &[&str], rows: &[Vec<String>], last_is_sum: bool) -> String {
    let class = |at: usize| if heads[at].starts_with('#') { " class=\"n\"" } else { "" };
    let head: String = heads
        .iter()
        .enumerate()
        .map(|(at, head)| format!("<th{}>{}</th>", class(at), head.trim_start_matches('#')))
        .collect();
    let mut said = format!("<table>\n<tr>{head}</tr>\n");
    for (number, row) in rows.iter().enumerate() {
        let sum = if last_is_sum && number + 1 == rows.len() { " class=\"sum\"" } else { "" };
        let row: String = row
            .iter()
            .enumerate()
            .map(|(at, cell)| format!("<td{}>{cell}</td>", class(at)))
            .collect();
        said += &format!("<tr{sum}>{row}</tr>\n");
    }
    said + "</table>\n"
}

/// The text with its lines numbered; those that are named are marked.
pub fn numbered(text: &str, is_named: impl Fn(usize) -> bool) -> String {
    let lines: Vec<&str> = text.trim_end().split('\n').map(str::trim_end).collect();
    let wide = lines.len().to_string().len();
    let shown: String = lines
        .iter()
        .enumerate()
        .map(|(place, line)| {
            let number = place + 1;
            let line = safe(line);
            match is_named(number) {
                true => format!("{number:wide$} \u{25b6} <b>{line}</b>\n"),
                false => format!("{number:wide$}   {line}\n"),
            }
        })
        .collect();
    format!("<pre>{shown}</pre>\n")
}

#[cfg(test)]
mod tests {
    use super::day;

    #[test]
    fn days_of_the_calendar() {
        for (number, said) in [
            (0, "1970-01-01"),
            (59, "1970-03-01"),
            (11_016, "2000-02-29"),
            (19_723, "2024-01-01"),
            (20_773, "2026-11-16"),
            (47_540, "2100-02-28"),
            (47_541, "2100-03-01"),
        ] {
            assert_eq!(day(number), said);
        }
    }
}
