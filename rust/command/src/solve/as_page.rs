//! An answer as a page.

use super::Shown;
use crate::clash::{added_up, loosened, reference, Counted};
use crate::page::bars::{bars, Part};
use crate::page::scale::{scale, Dot};
use crate::page::{cells, drawn, numbered, page, safe};
use crate::problem::{all_limits, called, left_out, Values};
use crate::{Ended, CAN, CANNOT, RANGE};
use scatterflock::WideVerdict;
use text::limits::Side;

impl Shown {
    /// The answer as a page.
    pub(super) fn paged(&self) -> Ended {
        let (verdict, status) = match &self.answer.verdict {
            Some(WideVerdict::Can { .. }) => ("can", CAN),
            Some(WideVerdict::Cannot { .. }) => ("cannot", CANNOT),
            None => ("range", RANGE),
        };
        Ended::saying(page(&self.file, &self.digest, verdict, &self.sections()), status)
    }

    /// The parts of the page, with their titles.
    pub(super) fn sections(&self) -> Vec<(&'static str, String)> {
        match &self.answer.verdict {
            Some(WideVerdict::Cannot { lower, upper }) => {
                self.cannot_page(&self.counted([lower, upper]))
            }
            verdict => Values::of(&self.problem, verdict)
                .map_or_else(|| self.range_page(), |values| self.can_page(values)),
        }
    }

    fn accepted_page(&self) -> String {
        let left_out = left_out(self.text.as_deref(), "limits");
        let left_out = match left_out.trim_start_matches("# ").trim_end() {
            "" => String::new(),
            said => format!("<p>{said}</p>\n"),
        };
        let said = self.how().into_iter().map(|sentence| format!("<p>{sentence}</p>\n"));
        said.collect::<String>() + &left_out
    }

    /// The text with its lines numbered; that of the words where there is none.
    fn problem_page(&self, is_named: impl Fn(usize) -> bool) -> (&'static str, String) {
        let text = self.text.clone().unwrap_or_else(|| self.problem.text());
        ("The problem", numbered(&text, is_named))
    }

    fn dot(&self, values: Values, variable: usize) -> Dot {
        let value = values.at(variable);
        let read = value.read_as().map_or(String::new(), |read| format!(" ({read})"));
        let limits = Side::BOTH.map(|side| {
            let is_strict = self.problem.limits[variable][side as usize]?.is_strict;
            Some((self.problem.limit(variable, side)?, is_strict))
        });
        let label = self.problem.left(variable);
        Dot { label, value: drawn(value.plain), said: format!("{value}{read}"), limits }
    }

    fn can_page(&self, values: Values) -> Vec<(&'static str, String)> {
        let n = self.problem.names.len();
        let own: Vec<Dot> = (0..n).map(|variable| self.dot(values, variable)).collect();
        let sums = n..self.problem.limits.len();
        let rows: Vec<Dot> = sums.map(|row| self.dot(values, row)).collect();
        let small = self.small(values);
        let small =
            small.lines().map(|line| format!("<p>{}</p>\n", safe(line.trim_start_matches("# "))));
        let start = format!(
            "<p>These values meet every limit.</p>\n{}{}",
            small.collect::<String>(),
            self.accepted_page()
        );
        let mut sections = vec![("", start), ("Values between their limits", scale(&own, true))];
        if !rows.is_empty() {
            sections.push(("Sums between theirs, each on a scale of its own", scale(&rows, false)));
        }
        sections.push(("To check it by hand", self.by_hand(values)));
        sections.push(self.problem_page(|_| false));
        sections
    }

    /// Each limit with the values put in.
    fn by_hand(&self, values: Values) -> String {
        let rows = all_limits(&self.problem).into_iter().filter_map(|(variable, side)| {
            let limit = self.problem.limits[variable][side as usize]?;
            let said = self.problem.limit_text(variable, side)?;
            let number = self.problem.limit(variable, side)?;
            let mut put = String::new();
            let terms = self.problem.coefficients(variable).into_iter().enumerate();
            let mut terms: Vec<(usize, i32)> = terms.filter(|term| term.1 != 0).collect();
            if let Some(place) = terms.iter().position(|term| term.1 > 0) {
                terms[..=place].rotate_right(1);
            }
            for (at, coefficient) in terms {
                let value = values.at(at);
                let is_plain = value.small.numerator == 0 && value.plain.numerator >= 0;
                let value = if is_plain { value.to_string() } else { format!("({value})") };
                put += match (put.is_empty(), coefficient.signum()) {
                    (true, -1) => "-",
                    (true, _) => "",
                    (false, -1) => " \u{2212} ",
                    (false, _) => " + ",
                };
                put += &match coefficient.abs() {
                    1 => value,
                    times => format!("{times}\u{b7}{value}"),
                };
            }
            let line = called(&self.problem, variable, side);
            let is = format!("{} {} {number}", values.at(variable), limit.sign(side));
            Some(vec![line, said, put, is])
        });
        cells(&["#line", "limit", "with the values", "comes to"], &rows.collect::<Vec<_>>(), false)
    }

    fn cannot_page(&self, counted: &[Counted]) -> Vec<(&'static str, String)> {
        let (each, sum) = added_up(&self.problem, counted);
        let line = |variable: usize, side: Side| {
            self.problem.limits[variable][side as usize].and_then(|limit| limit.line)
        };
        let said = |variable, side| self.problem.limit_text(variable, side).unwrap_or_default();
        let parts = counted.iter().zip(&each).map(|(&(variable, side, times), at_least)| {
            let limit = said(variable, side);
            let label = if times == 1 { limit } else { format!("{times} \u{d7} ({limit})") };
            let place = reference(&self.problem, variable, side);
            Part { label, place, amount: at_least.right }
        });
        let rows = counted.iter().zip(&each).map(|(&(variable, side, times), at_least)| {
            let name = called(&self.problem, variable, side);
            let right = format!("{} {}", at_least.sign, at_least.right.as_text());
            vec![name, said(variable, side), times.to_string(), at_least.left.clone(), right]
        });
        let last = format!("{} {}", sum.sign, sum.right.as_text());
        let last = [String::new(), "added up".into(), String::new(), sum.left.clone(), last];
        let rows: Vec<Vec<String>> = rows.chain([last.to_vec()]).collect();
        let loose = counted.iter().map(|&limit| {
            let (variable, side, _) = limit;
            let to = loosened(&self.problem, limit, &sum).plain;
            let to = match to.decimal() {
                (decimal, true) => decimal,
                (decimal, false) => format!("{to}, about {decimal}"),
            };
            let name = called(&self.problem, variable, side);
            let sign = if side == Side::Lower { ">=" } else { "<=" };
            let new = format!("{} {sign} {to}", self.problem.left(variable));
            vec![name, said(variable, side), new]
        });
        let loose = cells(&["#line", "limit", "loosened to"], &loose.collect::<Vec<_>>(), false);
        let beyond = match sum.sign {
            ">" => "<p>It takes more than that, since one of them is strict.</p>\n",
            _ => "",
        };
        let named: Vec<usize> = counted.iter().filter_map(|&(v, side, _)| line(v, side)).collect();
        let start = match self.answer.left_range_after {
            None => {
                "<p>No values meet the limits below together, and each of them is needed for that: \
                 drop any one, and the others below can be met.</p>\n"
            }
            Some(_) => "<p>No values meet the limits below together.</p>\n",
        };
        vec![
            ("", format!("{start}{}", self.accepted_page())),
            ("What they ask for, and what they allow", bars(&parts.collect::<Vec<Part>>())),
            (
                "To check it by hand: each as \u{201c}at least\u{201d}, so many times, and added up",
                cells(&["#line", "limit", "#times", "#left", "right"], &rows, true),
            ),
            (
                "Each of these alone would end this clash (another may show then)",
                format!("{loose}{beyond}"),
            ),
            self.problem_page(|number| named.contains(&number)),
        ]
    }

    fn range_page(&self) -> Vec<(&'static str, String)> {
        let said = "<p>A number grew beyond 2147483647, and the run ended. That says nothing \
                    about the limits. With --wide the run goes on, and decides it.</p>\n";
        vec![("", said.to_string()), self.problem_page(|_| false)]
    }
}
