//! The bodies of a day's file: a line each, which leads to a part of its own.

use super::{cells, linked_cells, safe, under_titles};
use crate::{CAN, CANNOT, RANGE, REFUSED};
use scatterflock::{Named, Sheet};

/// The most bytes of the page of a day's file.
pub const MOST_BYTES: usize = 200_000;

/// What is said of a body.
pub struct Body {
    pub status: u8,
    /// How many words it has.
    pub words: String,
    /// A line about it.
    pub line: String,
    /// The answer with pictures; there is none of a body that is refused.
    pub sections: Vec<(&'static str, String)>,
    /// Its problem as text, where it has one.
    pub problem: String,
    /// The answer as text.
    pub answer: String,
}

/// How much is shown of each body.
#[derive(Debug, Clone, Copy, PartialEq, Eq)]
pub enum Detail {
    /// The answer with pictures, and the problem.
    Pictures,
    /// The answer as text, and the problem.
    Problem,
    /// The answer as text.
    Answer,
    /// Values, or the limits that clash, alone.
    Values,
}

impl Detail {
    /// All of them, from the most on.
    pub const ALL: [Detail; 4] =
        [Detail::Pictures, Detail::Problem, Detail::Answer, Detail::Values];

    /// What is said where there was no room for more.
    fn note(self) -> String {
        let left_out = match self {
            Detail::Pictures => "nothing is",
            Detail::Problem => "pictures are",
            Detail::Answer => "pictures and problems are",
            Detail::Values => "pictures, problems and sums are",
        };
        format!(
            "<p>So that this page is no longer than {MOST_BYTES} bytes, {left_out} left out below. \
             <code>scatterflock unpack</code> writes each body into a file of its own, which \
             <code>scatterflock --page solve</code> shows.</p>\n"
        )
    }
}

/// What the class of a body is called, by its status.
pub fn class(status: u8) -> &'static str {
    match status {
        CAN => "can",
        CANNOT => "cannot",
        RANGE => "out of range",
        _ => "refused",
    }
}

/// How many bodies are in each class.
pub fn classes(bodies: &[Body]) -> [(&'static str, usize); 4] {
    [CAN, CANNOT, RANGE, REFUSED]
        .map(|status| (class(status), bodies.iter().filter(|body| body.status == status).count()))
}

/// How many of the limits that are named most often are listed.
const MOST_NAMED: usize = 12;

/// The limits that clashes name, most often first.
pub fn named(sheet: &Sheet) -> String {
    let each = sheet.named.iter().enumerate().flat_map(|(variable, Named { lower, upper })| {
        [(*lower, variable, "lower"), (*upper, variable, "upper")]
    });
    let mut each: Vec<_> = each.filter(|limit| limit.0 > 0).collect();
    if each.is_empty() {
        return "<p>No clash names a limit.</p>\n".to_string();
    }
    each.sort_by_key(|limit| std::cmp::Reverse(limit.0));
    let rest = each.len().saturating_sub(MOST_NAMED);
    let rows = each.iter().take(MOST_NAMED).map(|(count, variable, side)| {
        vec![count.to_string(), variable.to_string(), (*side).to_string()]
    });
    let table =
        cells(&["#clashes that name it", "#variable", "limit"], &rows.collect::<Vec<_>>(), false);
    match rest {
        0 => table,
        1 => format!("{table}<p>One more is named, and not more often.</p>\n"),
        rest => format!("{table}<p>{rest} more are named, and not more often.</p>\n"),
    }
}

/// A line for each body, and below them a part for each, in as much detail as has
/// room beside so many bytes.
pub fn bodies(all: &[Body], beside: usize, most: Detail) -> String {
    let lines = lines(all);
    let details = Detail::ALL.into_iter().skip_while(|detail| *detail != most);
    let shown = details.map(|detail| {
        let note = if detail == most { String::new() } else { detail.note() };
        format!("{lines}{note}{}", parts(all, detail))
    });
    let mut shortest = String::new();
    for shown in shown {
        shortest = shown;
        if beside + shortest.len() <= MOST_BYTES {
            break;
        }
    }
    shortest
}

fn lines(all: &[Body]) -> String {
    let rows = all.iter().enumerate().map(|(number, body)| {
        let link = format!("<a href=\"#body-{number}\">body {number}</a>");
        vec![link, class(body.status).to_string(), safe(&body.words), safe(&body.line)]
    });
    let rows: Vec<Vec<String>> = rows.collect();
    match rows.is_empty() {
        true => "<p>There is no body in this file.</p>\n".to_string(),
        false => linked_cells(&["", "answer", "size", ""], &rows, false),
    }
}

fn parts(all: &[Body], detail: Detail) -> String {
    let parts = all.iter().enumerate().map(|(number, body)| {
        let title = format!("<h2>Body {number}: {}</h2>\n", class(body.status));
        format!("<section id=\"body-{number}\">\n{title}{}</section>\n", part(body, detail))
    });
    parts.collect()
}

fn part(body: &Body, detail: Detail) -> String {
    let preformatted = |text: &str| format!("<pre>{}</pre>\n", safe(text.trim_end()));
    match detail {
        Detail::Pictures if !body.sections.is_empty() => under_titles("h3", &body.sections),
        Detail::Pictures | Detail::Problem if !body.problem.is_empty() => {
            preformatted(&body.answer) + "<h3>The problem</h3>\n" + &preformatted(&body.problem)
        }
        Detail::Values if body.status != REFUSED => {
            let told = body.answer.lines().skip(1).filter(|line| !line.starts_with('#'));
            preformatted(told.collect::<Vec<&str>>().join("\n").trim_start())
        }
        _ => preformatted(&body.answer),
    }
}

#[cfg(test)]
mod tests {
    use super::*;

    fn body(long: usize) -> Body {
        let sections = vec![("", "p".repeat(long))];
        let answer = format!("can\n\nx0 = 1\n\n# {}\n", "a".repeat(long / 2));
        let (words, line) = ("5 words".to_string(), "x0 = 1".to_string());
        Body { status: CAN, words, line, sections, problem: "p".repeat(long / 4), answer }
    }

    #[test]
    fn what_has_room_is_shown() {
        for (long, left_out) in [
            (2_000, None),
            (3_600, Some("pictures are")),
            (5_000, Some("pictures and problems are")),
            (9_000, Some("pictures, problems and sums are")),
        ] {
            let all: Vec<Body> = (0..64).map(|_| body(long)).collect();
            let shown = bodies(&all, 3_000, Detail::Pictures);
            assert!(shown.len() + 3_000 <= MOST_BYTES, "{long}: {}", shown.len());
            assert_eq!(shown.contains("left out"), left_out.is_some(), "{long}");
            assert!(left_out.is_none_or(|what| shown.contains(&format!("{what} left out"))));
            assert_eq!(shown.matches("<a href=\"#body-63\">").count(), 1);
            assert_eq!(shown.matches("<section id=\"body-63\">").count(), 1);
        }
    }
}
