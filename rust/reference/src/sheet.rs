//! The auditor's sheet: exact totals over the bodies of a day's file.
//!
//! Renders "The auditor's sheet" of docs/RULES.md.

use crate::answer::{Answer, Verdict};
use crate::bundle::bodies_in;
use crate::problem::Problem;
use crate::run::run;

/// The refusals of a body, in the order of the checks.
const REFUSALS: [u32; 7] = [1, 2, 3, 4, 5, 6, 10];
/// A sheet has a line for each variable that some problem may have.
const VARIABLES: usize = 32;

/// What a body comes to: its answer, or the number that refuses it.
type Outcome = Result<Answer, u32>;

/// The whole sheet of a file, or the line of the file's refusal.
pub fn sheet_text(file: &[u8]) -> Vec<u8> {
    let lines = match bodies_in(file) {
        Ok((most_rows, bodies)) => {
            let outcome = |body: &Vec<i32>| Ok(run(&Problem::read_within(most_rows, body)?));
            sheet_lines(&bodies.iter().map(outcome).collect::<Vec<Outcome>>())
        }
        Err(refusal) => vec![format!("refused {refusal}")],
    };
    lines.iter().flat_map(|line| format!("{line}\n").into_bytes()).collect()
}

/// Prints the sheet of a file, and says how long it is. Where there is no room for
/// all of it, nothing is written.
pub fn sheet(file: &[u8], text: &mut [u8]) -> usize {
    let printed = sheet_text(file);
    if let Some(front) = text.get_mut(..printed.len()) {
        front.copy_from_slice(&printed);
    }
    printed.len()
}

fn sheet_lines(bodies: &[Outcome]) -> Vec<String> {
    let [can, cannot, range] = by_verdict(bodies);
    let mut lines = vec![
        format!("bodies {}", bodies.len()),
        format!("can {can}"),
        format!("cannot {cannot}"),
        format!("range {range}"),
    ];
    for number in REFUSALS {
        let count = bodies.iter().filter(|body| **body == Err(number)).count();
        lines.push(format!("refused {number} {count}"));
    }
    lines.extend(pivot_lines(bodies));
    lines.extend((0..VARIABLES).map(|variable| named_line(bodies, variable)));
    lines
}

/// How many bodies can, how many cannot, and how many are out of range.
fn by_verdict(bodies: &[Outcome]) -> [usize; 3] {
    let mut counts = [0; 3];
    for answer in bodies.iter().flatten() {
        counts[match answer.verdict {
            Verdict::Can { .. } => 0,
            Verdict::Cannot(_) => 1,
            Verdict::Range => 2,
        }] += 1;
    }
    counts
}

/// The sum of the pivots, and the most of one body with the lowest that has them.
fn pivot_lines(bodies: &[Outcome]) -> [String; 2] {
    let pivots = |body: &Outcome| body.as_ref().ok().map(|answer| answer.pivots);
    let pivots: Vec<Option<i64>> = bodies.iter().map(pivots).collect();
    let sum: i64 = pivots.iter().flatten().sum();
    let largest = match pivots.iter().flatten().max() {
        None => "largest 0 body none".to_string(),
        Some(&most) => {
            let lowest = pivots.iter().position(|&pivots| pivots == Some(most));
            format!("largest {most} body {}", lowest.expect("some body has the most"))
        }
    };
    [format!("pivots {sum}"), largest]
}

/// In how many "cannot" answers each limit of a variable is named.
fn named_line(bodies: &[Outcome], variable: usize) -> String {
    let (mut lower, mut upper) = (0, 0);
    for answer in bodies.iter().flatten() {
        if let Verdict::Cannot(multipliers) = &answer.verdict {
            let named = |side: &[i128]| side.get(variable).is_some_and(|&times| times != 0);
            lower += usize::from(named(&multipliers.lower));
            upper += usize::from(named(&multipliers.upper));
        }
    }
    format!("{variable} lower {lower} upper {upper}")
}
