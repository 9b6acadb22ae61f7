//! A limit problem, read from a text.
//!
//! - `given`: limits as lines give them to a variable or a row
//! - `whole`: all of it in whole numbers

mod given;
mod whole;

use super::{Limits, Own, MOST_ROWS, MOST_VARIABLES};
use crate::constants;
use crate::exact::Exact;
use crate::fault::Fault;
use crate::labels::Labels;
use crate::names::Names;
use crate::opening::{self, Holds};
use crate::statement::{self, statement, Statement};
use crate::tokens::{lines, Kind, Line};
use given::{limited, Limited};
use whole::{cleared, Cleared};

struct Row {
    coefficients: Vec<i64>,
    limited: Limited,
    /// Whether its line begins with `row`: it is shared with no other line.
    is_alone: bool,
    /// The line that has it first, and the column of each name there.
    line: usize,
    columns: Vec<(usize, usize)>,
}

struct Reading {
    names: Names,
    own: Vec<Limited>,
    rows: Vec<Row>,
    /// What each line says, in its own numbers.
    said: Vec<Own>,
    labels: Labels,
}

/// Reads a text of limits.
///
/// # Errors
///
/// The first fault, with line and column.
pub fn read(text: &str) -> Result<Limits, Fault> {
    let mut lines = lines(text).peekable();
    let names = opening::names(text, &mut lines, Holds::Limits, MOST_VARIABLES)?;
    let own = names.list.iter().map(|_| Limited::default()).collect();
    let mut reading =
        Reading { names, own, rows: Vec::new(), said: Vec::new(), labels: Labels::default() };
    for line in lines {
        let line = line?.without_clock()?;
        reading.labels.take(&line, &reading.names)?;
        if let Some(fault) = opening::late(&line, Holds::Limits) {
            return Err(fault);
        }
        let (is_free, is_alone) = opened_by(&line);
        if is_free && !is_alone {
            reading.free(&line)?;
            continue;
        }
        if line.begins_with(constants::WORD) {
            reading.names.constants.define(&line, &reading.names.list, &reading.labels)?;
            continue;
        }
        let line = reading.names.constants.put_in(line)?;
        let skipped = usize::from(is_free) + usize::from(is_alone);
        if skipped > 0 && line.tokens.len() == skipped {
            return Err(line.fault(line.end, "a sum is missing after row"));
        }
        let said = statement(&line, skipped)?;
        reading.names_of(&line, &said)?;
        match (is_free, said.lower.or(said.upper)) {
            (false, None) => {
                let what = "a sign is missing: <=, <, >=, > or = says what the limit is";
                return Err(line.fault(line.end, what));
            }
            (true, Some(limit)) => {
                return Err(line.fault(limit.column, "a row that is free has no limit"));
            }
            _ => reading.say(&line, said, is_alone)?,
        }
    }
    reading.names.constants.unused()?;
    let found = reading.whole()?;
    reading.unlimited(&found).map_or(Ok(found), Err)
}

/// Whether a line begins with `free`, and whether `row` comes next, or first.
fn opened_by(line: &Line) -> (bool, bool) {
    let is_free = line.begins_with("free");
    let next = line.tokens.get(usize::from(is_free)).map(|token| &token.kind);
    (is_free, matches!(next, Some(Kind::Name(name)) if name == "row"))
}

impl Reading {
    fn free(&mut self, line: &Line) -> Result<(), Fault> {
        for (number, column) in self.names.free(line)? {
            let name = &self.names.list[number];
            let own = &mut self.own[number];
            if let Some(limit) = own.limits.iter().flatten().next() {
                let what = format!("{name} has a limit, in line {}", limit.line);
                return Err(line.fault(column, what));
            }
            if let Some(before) = own.free {
                let what = format!("{name} is said to be free already, in line {before}");
                return Err(line.fault(column, what));
            }
            own.free = Some(line.number);
        }
        Ok(())
    }

    fn say(&mut self, line: &Line, said: Statement, is_alone: bool) -> Result<(), Fault> {
        let named = self.names_of(line, &said)?;
        let Cleared { coefficients, limits } = cleared(line, &said)?;
        let is_turned = match (&coefficients[..], &said.terms[..]) {
            ([coefficient @ (1 | -1)], [term]) if !is_alone => {
                let is_turned = *coefficient < 0;
                limited(line, &mut self.own[named[0]], limits, is_turned, &term.name)?;
                is_turned
            }
            _ => {
                let mut row = vec![0; self.own.len()];
                for (coefficient, &number) in coefficients.iter().zip(&named) {
                    row[number] = *coefficient;
                }
                let columns = named.iter().copied().zip(said.terms.iter().map(|term| term.column));
                self.say_of_row(line, row, limits, is_alone, columns.collect())?
            }
        };
        self.keep(line, &said, &named, is_turned);
        Ok(())
    }

    /// Keeps what a line says, in its own numbers.
    fn keep(&mut self, line: &Line, said: &Statement, named: &[usize], is_turned: bool) {
        let mut coefficients = vec![Exact::ZERO; self.own.len()];
        for (term, &number) in said.terms.iter().zip(named) {
            coefficients[number] = term.coefficient;
        }
        let limits = [said.lower, said.upper];
        let limits = limits.map(|limit| limit.map(|limit| (limit.number, limit.is_strict)));
        self.said.push(Own { line: line.number, coefficients, limits, is_turned });
    }

    /// The number of each name of a line.
    fn names_of(&self, line: &Line, said: &Statement) -> Result<Vec<usize>, Fault> {
        let mut named = Vec::new();
        for term in &said.terms {
            let number = self.names.used(line, term.column, &term.name, term.is_counted)?;
            if named.contains(&number) {
                let what = format!("{} comes twice in this line: add them up", term.name);
                return Err(line.fault(term.column, what));
            }
            if term.coefficient == Exact::ZERO && said.terms.len() > 1 {
                let what = format!("0 {} says nothing: leave it out", term.name);
                return Err(line.fault(term.column, what));
            }
            named.push(number);
        }
        Ok(named)
    }

    /// Limits of a row: of one that is there, or of a new one. Says whether the line
    /// is about its opposite.
    fn say_of_row(
        &mut self,
        line: &Line,
        row: Vec<i64>,
        limits: [Option<statement::Limit>; 2],
        is_alone: bool,
        columns: Vec<(usize, usize)>,
    ) -> Result<bool, Fault> {
        let turned: Vec<i64> = row.iter().map(|number| -number).collect();
        let shared = self.rows.iter_mut().find(|other| {
            !is_alone && !other.is_alone && [&row, &turned].contains(&&other.coefficients)
        });
        if let Some(shared) = shared {
            let is_turned = shared.coefficients != row;
            limited(line, &mut shared.limited, limits, is_turned, "this sum")?;
            return Ok(is_turned);
        }
        if self.rows.len() == MOST_ROWS {
            let what = format!("one row too many: there are {MOST_ROWS} at most");
            return Err(line.fault(line.tokens[0].column, what));
        }
        let limited_by = Limited::default();
        let mut begun =
            Row { coefficients: row, limited: limited_by, is_alone, line: line.number, columns };
        limited(line, &mut begun.limited, limits, false, "this sum")?;
        self.rows.push(begun);
        Ok(false)
    }

    /// The fault of a name that nothing limits, unless `free` says that this is
    /// meant.
    fn unlimited(&self, found: &Limits) -> Option<Fault> {
        let not_meant = |(name, _): &(usize, Option<usize>)| self.own[*name].free.is_none();
        let (number, row) = found.unlimited().into_iter().find(not_meant)?;
        let name = &self.names.list[number];
        let meant = format!("a line free {name} says that this is meant");
        let Some(row) = row.map(|row| &self.rows[row]) else {
            let (line, column) = self.names.places[number];
            return Some(Fault::new(line, column, format!("nothing limits {name}; {meant}")));
        };
        let column = row.columns.iter().find(|(other, _)| *other == number)?.1;
        let what = format!(
            "{name} has no limit and stands in this line alone, so the line says nothing; {meant}"
        );
        Some(Fault::new(row.line, column, what))
    }
}
