//! Times, or rows that go round, as a page.

use super::{called, minutes, place, sign, spare, sum, Asked};
use crate::page::bars::{bars, Part};
use crate::page::timeline::{timeline, Point, Tie};
use crate::page::{cells, drawn, numbered, page};
use crate::problem::left_out;
use crate::{Ended, CAN, CANNOT};
use scatterflock::Fractions;
use text::times::Row;
use text::Exact;

fn paged(asked: &Asked, verdict: &str, sections: &[(&str, String)], status: u8) -> Ended {
    Ended::saying(page(&asked.file, &asked.digest, verdict, sections), status)
}

/// What is said first, and of comments that read as rows.
fn start(asked: &Asked, said: &str) -> (&'static str, String) {
    let left_out = left_out(asked.text.as_deref(), "rows");
    let left_out = match left_out.trim_start_matches("# ").trim_end() {
        "" => String::new(),
        said => format!("<p>{said}</p>\n"),
    };
    ("", format!("<p>{said}</p>\n{left_out}"))
}

fn rows_page(asked: &Asked, is_named: impl Fn(usize) -> bool) -> (&'static str, String) {
    let text = asked.text.clone().unwrap_or_else(|| asked.rows.text());
    ("The rows", numbered(&text, is_named))
}

pub fn can(asked: &Asked, times: &Fractions) -> Ended {
    let rows = &asked.rows;
    let points = rows.names.iter().zip(&times.numerators).map(|(name, &numerator)| {
        let minutes = minutes(rows, numerator, times);
        Point { label: name.clone(), minutes: drawn(minutes), said: minutes.to_string() }
    });
    let exact = rows.rows.iter().filter(|row| spare(row, times) == 0 && row.x != row.y);
    let ties = exact.map(|row| {
        // x - y is c exactly: where c is below 0 y comes later, else x does.
        let (earlier, later) = if row.c < 0 { (row.x, row.y) } else { (row.y, row.x) };
        let said = Exact::new(i64::from(row.c).abs(), rows.parts.into()).to_string();
        Tie { earlier, later, said }
    });
    let far = rows.rows.iter().map(|row| {
        let spare = minutes(rows, spare(row, times), times).to_string();
        vec![called(rows, row), rows.row_text(row), spare]
    });
    let far: Vec<Vec<String>> = far.collect();
    let picture = timeline(&points.collect::<Vec<_>>(), &ties.collect::<Vec<_>>());
    let said =
        "These times, in minutes from 0 on, meet every row. The proved checker of time rows \
                has accepted them.";
    let sections = [
        start(asked, said),
        ("When, and which rows hold it there", picture),
        ("Minutes to spare", cells(&["#line", "row", "#to spare"], &far, false)),
        rows_page(asked, |_| false),
    ];
    paged(asked, "can", &sections, CAN)
}

pub fn cannot(asked: &Asked, cycle: &[usize]) -> Ended {
    let rows = &asked.rows;
    let listed: Vec<&Row> = cycle.iter().map(|&row| &rows.rows[row]).collect();
    let shown = |c: i64| Exact::new(c, rows.parts.into());
    let parts = listed.iter().map(|row| Part {
        label: rows.row_text(row),
        place: place(rows, row).unwrap_or_default(),
        amount: shown(-i64::from(row.c)).into(),
    });
    let (sum, is_strict) = sum(&listed);
    let added = listed.iter().map(|row| {
        let left = format!("{} - {}", rows.names[row.x], rows.names[row.y]);
        let right = format!("{} {}", sign(row.is_strict), shown(row.c.into()));
        vec![called(rows, row), rows.row_text(row), left, right]
    });
    let last = format!("{} {}", sign(is_strict), shown(sum));
    let last = vec![String::new(), "added up".to_string(), "0".to_string(), last];
    let added: Vec<Vec<String>> = added.chain([last]).collect();
    let named: Vec<usize> = listed.iter().filter_map(|row| row.line).collect();
    let sections = [
        start(
            asked,
            "No times meet the rows below together. The proved checker of time rows has accepted \
             that.",
        ),
        ("Minutes asked for, and minutes allowed", bars(&parts.collect::<Vec<Part>>())),
        ("To check it by hand", cells(&["#line", "row", "#left", "right"], &added, true)),
        rows_page(asked, |number| named.contains(&number)),
    ];
    paged(asked, "cannot", &sections, CANNOT)
}
