//! The totals of a day's file as a page.

use super::words;
use crate::day;
use crate::page::bodies::{self, Detail};
use crate::page::counts::counts;
use crate::page::{cells, marked, under_titles};
use crate::{Ended, Failure, CAN};
use scatterflock::Bundle;

/// The page of a bundle, by the name and the digest of its file.
pub fn page(file: &str, digest: &str, bundle: &Bundle) -> Result<Ended, Failure> {
    let (all, sheet) = (day::bodies("audit", file, bundle)?, bundle.sheet());
    let told = sheet.to_string();
    let lines = told.lines().zip(words(bundle.edition(), &sheet));
    let totals = lines.take(told.lines().count() - sheet.named.len());
    let totals = totals.map(|(line, words)| vec![line.to_string(), words]);
    let counted = [("can", sheet.can), ("cannot", sheet.cannot), ("out of range", sheet.range)];
    let refused = sheet.refused.iter().map(|(_, count)| *count).sum();
    let classes = counted.into_iter().chain([("refused", refused)]);
    let classes: Vec<(&str, usize)> =
        classes.map(|(class, count)| (class, count as usize)).collect();
    let start = "<p>Exact totals over all bodies of a day's file. That these are the counts is \
                 proved.</p>\n";
    let above = [
        ("", start.to_string()),
        ("Bodies of each class", counts(&classes)),
        ("The lines of the sheet", cells(&["", ""], &totals.collect::<Vec<_>>(), false)),
        ("The limits that clashes name most often", bodies::named(&sheet)),
    ];
    let above = under_titles("h2", &above);
    let verdict = match sheet.bodies {
        1 => "1 body".to_string(),
        count => format!("{count} bodies"),
    };
    let whole = |below: &str| marked(file, digest, ("can", &verdict), &format!("{above}{below}"));
    let beside = whole("<h2>Bodies</h2>\n").len();
    let below = bodies::bodies(&all, beside, Detail::Values);
    Ok(Ended::saying(whole(&format!("<h2>Bodies</h2>\n{below}")), CAN))
}
