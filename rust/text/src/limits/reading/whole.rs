//! A text's numbers made whole: coefficients line by line, then limits in parts of
//! a unit.

use super::given::Found;
use super::Reading;
use crate::exact::{multiple, LARGEST_DENOMINATOR};
use crate::fault::Fault;
use crate::limits::{Limit, Limits, LARGEST_COEFFICIENT, LARGEST_LIMIT};
use crate::statement::{self, Statement};
use crate::tokens::Line;

/// What a line says, with whole coefficients: all of it so many times.
pub struct Cleared {
    pub coefficients: Vec<i64>,
    pub limits: [Option<statement::Limit>; 2],
}

impl Reading {
    /// The problem: limits of names count parts of a unit, fine enough for each of
    /// them, and each row is taken so many times that its limits are whole too.
    pub fn whole(&self) -> Result<Limits, Fault> {
        let mut parts = 1;
        for found in self.own.iter().flat_map(|own| own.limits).flatten() {
            parts = multiple(parts, found.number.denominator);
            if parts > LARGEST_DENOMINATOR {
                let what = "with the limits before, parts of a unit get finer than thousandths";
                return Err(Fault::new(found.line, found.column, what));
            }
        }
        let mut limits = Vec::new();
        for own in &self.own {
            limits.push(counted(own.limits, parts, parts)?);
        }
        let (mut rows, mut taken) = (Vec::new(), Vec::new());
        for row in &self.rows {
            let set = row.limited.limits.into_iter().flatten();
            let times =
                set.fold(1, |times, found| multiple(times, found.number.times(parts).denominator));
            let (lines, column) = (row.line, row.columns[0].1);
            limits.push(counted(row.limited.limits, parts * times, parts)?);
            let whole = row.coefficients.iter().map(|coefficient| coefficient * times);
            let largest = i64::from(LARGEST_COEFFICIENT);
            if let Some(number) = whole.clone().find(|number| number.abs() > largest) {
                return Err(Fault::new(lines, column, beyond(number)));
            }
            rows.push(whole.map(|number| number as i32).collect());
            taken.push(times as i32);
        }
        let names = self.names.list.clone();
        let (said, labels) = (self.said.clone(), self.labels.clone());
        Ok(Limits { names, rows, limits, parts: parts as i32, taken, said, labels })
    }
}

/// What to say of a coefficient that is too large once it is whole.
fn beyond(number: i64) -> String {
    format!("with whole numbers this line has {number}: a coefficient is from -1000 to 1000")
}

/// A line so many times that its coefficients are whole.
pub fn cleared(line: &Line, said: &Statement) -> Result<Cleared, Fault> {
    let each = said.terms.iter().map(|term| term.coefficient.denominator);
    let times = each.fold(1, |times, denominator| multiple(times, denominator).min(1_000_000));
    let mut coefficients = Vec::new();
    for term in &said.terms {
        let number = term.coefficient.times(times);
        if number.denominator != 1 || number.is_beyond(LARGEST_COEFFICIENT.into()) {
            return Err(line.fault(term.column, beyond(number.numerator)));
        }
        coefficients.push(number.numerator);
    }
    let taken = |limit: statement::Limit| {
        let number = limit.number.times(times);
        statement::Limit { number, ..limit }
    };
    let limits = [said.lower, said.upper].map(|limit| limit.map(taken));
    Ok(Cleared { coefficients, limits })
}

/// Limits in parts of a unit.
fn counted(found: [Option<Found>; 2], parts: i64, unit: i64) -> Result<[Option<Limit>; 2], Fault> {
    let mut limits = [None; 2];
    for (limit, found) in limits.iter_mut().zip(found) {
        let Some(Found { number, is_strict, line, column }) = found else { continue };
        let number = number.times(parts).numerator;
        if number.abs() > i64::from(LARGEST_LIMIT) {
            let start = format!(
                "with whole numbers this limit is {number}, and {LARGEST_LIMIT} is the most"
            );
            let what = match unit {
                1 => start,
                unit => format!("{start}: limits of this text need parts of 1/{unit}"),
            };
            return Err(Fault::new(line, column, what));
        }
        *limit = Some(Limit { number: number as i32, is_strict, line: Some(line) });
    }
    Ok(limits)
}
