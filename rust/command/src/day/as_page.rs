//! A day's file as a page.

use super::{count_text, under_way};
use crate::input::{Content, Input};
use crate::page::bodies::{self, Body, Detail};
use crate::page::counts::counts;
use crate::page::{marked, under_titles};
use crate::problem::refused;
use crate::{solve, Ended, Failure, CAN, REFUSED};
use scatterflock::{Bundle, Problem, Refusal};

/// The page of a bundle, by the name and the digest of its file.
pub fn page(file: &str, digest: &str, bundle: &Bundle) -> Result<Ended, Failure> {
    let all = bodies("day", file, bundle)?;
    let status = all.iter().map(|body| body.status).max().unwrap_or(CAN);
    let can = all.iter().filter(|body| body.status == CAN).count();
    let verdict = format!("{can} of {} can", all.len());
    let start = format!(
        "<p>A day's file, edition {}. The proved checker has accepted each answer that is shown \
         here.</p>\n",
        bundle.edition()
    );
    let above = [
        ("", start),
        ("Bodies of each class", counts(&bodies::classes(&all))),
        ("The limits that clashes name most often", bodies::named(&bundle.sheet())),
    ];
    let above = under_titles("h2", &above);
    let class = if status == CAN { "can" } else { "cannot" };
    let whole = |below: &str| marked(file, digest, (class, &verdict), &format!("{above}{below}"));
    let beside = whole("<h2>Bodies</h2>\n").len();
    let below = bodies::bodies(&all, beside, Detail::Pictures);
    Ok(Ended::saying(whole(&format!("<h2>Bodies</h2>\n{below}")), status))
}

/// What is said of each body of a bundle; a terminal says how far the work is.
pub fn bodies(work: &str, file: &str, bundle: &Bundle) -> Result<Vec<Body>, Failure> {
    under_way(work, bundle).map(|words| body(file, bundle, words)).collect()
}

fn body(file: &str, bundle: &Bundle, words: &[i32]) -> Result<Body, Failure> {
    let content = Content::Words(words.to_vec());
    let input = Input { file: file.to_string(), digest: String::new(), content };
    let answered = match Problem::from_words_within(bundle.most_rows(), words) {
        Err(Refusal::Sizes) => Err(refused(Refusal::Sizes, vec![])),
        _ => solve::body(input, count_text(words)),
    };
    match answered {
        Err(Failure::Refused { number, what, notes }) => {
            let line = format!("{number}: {what}");
            let told = Failure::Refused { number, what, notes }.told(false);
            let answer = String::from_utf8_lossy(&told.output).into_owned();
            let (words, sections, problem) = (count_text(words), vec![], String::new());
            Ok(Body { status: REFUSED, words, line, sections, problem, answer })
        }
        answered => answered,
    }
}
