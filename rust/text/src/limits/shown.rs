//! A limit problem, shown as text.

use super::{Limit, Limits, Side};
use crate::opening::{free, opened, Holds};

impl Limits {
    /// A sum of names, as text: those with 0 are left out, and one that is
    /// added comes first. An empty sum is 0.
    #[must_use]
    pub fn sum(&self, coefficients: &[i128]) -> String {
        let mut terms: Vec<(i128, &str)> = self.terms(coefficients).collect();
        if let Some(place) = terms.iter().position(|term| term.0 > 0) {
            terms[..=place].rotate_right(1);
        }
        match sum_text(terms.into_iter()) {
            text if text.is_empty() => "0".to_string(),
            text => text,
        }
    }

    /// The terms of a sum, but for those with 0.
    fn terms<'a>(&'a self, coefficients: &'a [i128]) -> impl Iterator<Item = (i128, &'a str)> {
        let terms = coefficients.iter().zip(&self.names).filter(|(number, _)| **number != 0);
        terms.map(|(number, name)| (*number, name.as_str()))
    }

    /// The coefficients of a variable or row, where they are not all 0.
    fn some_coefficients(&self, variable: usize) -> Option<Vec<i128>> {
        let coefficients = self.coefficients(variable).into_iter().map(i128::from);
        Some(coefficients.collect()).filter(|all: &Vec<i128>| all.iter().any(|&number| number != 0))
    }

    /// What is limited, as text.
    #[must_use]
    pub fn left(&self, variable: usize) -> String {
        let some = self.some_coefficients(variable);
        some.map_or_else(|| self.blank(), |coefficients| self.sum(&coefficients))
    }

    /// A row of zeros.
    fn blank(&self) -> String {
        format!("0 {}", self.names[0])
    }

    /// One limit as text: `x + y >= 2`.
    #[must_use]
    pub fn limit_text(&self, variable: usize, side: Side) -> Option<String> {
        let limit = self.limits.get(variable)?[side as usize]?;
        let number = self.limit(variable, side)?;
        Some(format!("{} {} {number}", self.left(variable), limit.sign(side)))
    }

    /// The whole problem as text: its names, those that nothing limits, and a
    /// line for each variable or row that is limited. The text has the same words.
    #[must_use]
    pub fn text(&self) -> String {
        let n = self.names.len();
        let mut lines = opened(Holds::Limits, &self.names);
        lines += &free(self.unlimited().into_iter().map(|(name, _)| &self.names[name]));
        for (variable, limits) in self.limits.iter().enumerate() {
            let left = self.left(variable);
            let [lower, upper] = Side::BOTH
                .map(|side| self.limit(variable, side).map_or(String::new(), |n| n.to_string()));
            let said = match *limits {
                [Some(low), Some(high)] if is_one_value(low, high) => {
                    format!("{left} = {lower}")
                }
                [Some(low), Some(high)] => {
                    let [first, second] = [low, high].map(|limit| limit.sign(Side::Upper));
                    format!("{lower} {first} {left} {second} {upper}")
                }
                [Some(low), None] => format!("{left} {} {lower}", low.sign(Side::Lower)),
                [None, Some(high)] => format!("{left} {} {upper}", high.sign(Side::Upper)),
                [None, None] if variable >= n => left,
                [None, None] => continue,
            };
            let start = match variable.checked_sub(n) {
                Some(_) if *limits == [None; 2] => "free row ",
                Some(row) if self.is_alone(row) => "row ",
                _ => "",
            };
            lines += &format!("{start}{said}\n");
        }
        lines
    }

    /// Whether a line about this row would be taken for something else.
    fn is_alone(&self, place: usize) -> bool {
        let n = self.names.len();
        let row = &self.coefficients(n + place);
        let turned: Vec<i32> = row.iter().map(|number| -number).collect();
        let named: Vec<i32> = row.iter().copied().filter(|&number| number != 0).collect();
        matches!(named[..], [1 | -1])
            || (n..n + place)
                .map(|other| self.coefficients(other))
                .any(|other| [row, &turned].contains(&&other))
    }
}

/// Whether a lower and an upper limit leave one value, as `=` does.
fn is_one_value(low: Limit, high: Limit) -> bool {
    low.number == high.number && !low.is_strict && !high.is_strict
}

/// The sum of terms, as text: `3 x - 2 y`.
fn sum_text<'a>(terms: impl Iterator<Item = (i128, &'a str)>) -> String {
    let mut text = String::new();
    for (coefficient, name) in terms {
        text += match (text.is_empty(), coefficient < 0) {
            (true, true) => "-",
            (true, false) => "",
            (false, true) => " - ",
            (false, false) => " + ",
        };
        match coefficient.abs() {
            1 => text += name,
            size => text += &format!("{size} {name}"),
        }
    }
    text
}
