//! A limit problem as SMT-LIB text.
//!
//! Renders docs/formats/smtlib.md, line by line.
//!
//! - `reading`: such a text, read back
//! - `ways`: what may follow its tokens

mod reading;
mod ways;

pub use reading::{smtlib_read, words_of};

use crate::problem::{Limit, Problem};

/// Writes the text of the words at the front of a lent slice, and hands back 0
/// and its count of bytes; or the number of the refusal and 0.
pub fn smtlib_write(words: &[i32], lent: &mut [u8]) -> (u32, usize) {
    let text = match Problem::read(words) {
        Ok(problem) => text(&problem),
        Err(number) => return (number, 0),
    };
    match lent.get_mut(..text.len()) {
        Some(front) => {
            front.copy_from_slice(text.as_bytes());
            (0, text.len())
        }
        None => (7, 0),
    }
}

/// All of its lines.
fn text(problem: &Problem) -> String {
    let m = problem.rows.len();
    let own = (0..problem.n).map(|column| format!("x{column}"));
    let names: Vec<String> = own.chain((0..m).map(|row| format!("r{row}"))).collect();

    let mut lines = vec!["(set-logic QF_LRA)".to_string()];
    lines.extend(names.iter().map(|name| format!("(declare-const {name} Real)")));
    for (row, coefficients) in problem.rows.iter().enumerate() {
        let sum = sum(coefficients);
        lines.push(format!("(assert (= r{row} {sum}))"));
    }
    for (name, limits) in names.iter().zip(&problem.limits) {
        lines.extend(limits.lower.map(|limit| limit_line([">=", ">"], name, limit)));
        lines.extend(limits.upper.map(|limit| limit_line(["<=", "<"], name, limit)));
    }
    lines.push("(check-sat)".to_string());
    lines.join("\n") + "\n"
}

/// Every coefficient with its column; one alone stands without a plus.
fn sum(coefficients: &[i128]) -> String {
    let term = |(column, &c): (usize, &i128)| format!("(* {} x{column})", number(c));
    let terms: Vec<String> = coefficients.iter().enumerate().map(term).collect();
    match terms.as_slice() {
        [alone] => alone.clone(),
        several => format!("(+ {})", several.join(" ")),
    }
}

/// A limit's line: the second relation is the strict one.
fn limit_line(relations: [&str; 2], name: &str, limit: Limit) -> String {
    let relation = relations[usize::from(limit.strict)];
    format!("(assert ({relation} {name} {}))", number(limit.plain))
}

/// A number below 0 is its size behind a minus, in parentheses.
fn number(number: i128) -> String {
    if number < 0 {
        format!("(- {})", -number)
    } else {
        number.to_string()
    }
}
