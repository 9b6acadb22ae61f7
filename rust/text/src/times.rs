//! Time rows as text, and their words.

use crate::constants;
use crate::exact::{multiple, Exact, LARGEST_DENOMINATOR};
use crate::fault::Fault;
use crate::labels::Labels;
use crate::limits::Side;
use crate::names::Names;
use crate::opening::{self, Holds};
use crate::statement::{statement, Limit, Statement};
use crate::tokens::{lines, Line};

/// The most names.
pub const MOST_VERTICES: usize = 64;
/// The most rows.
pub const MOST_ROWS: usize = 256;
/// The largest number of a row.
pub const LARGEST: i32 = 30_000;

/// Time rows with names.
#[derive(Debug, Clone, PartialEq, Eq)]
pub struct Times {
    /// The name of each point in time.
    pub names: Vec<String>,
    /// The rows.
    pub rows: Vec<Row>,
    /// How many parts a minute has: rows and times are counted in these. It is 1
    /// where all numbers of the text are whole.
    pub parts: i32,
    /// What its lines are called.
    pub labels: Labels,
}

/// The row x - y <= c, or x - y < c where it is strict.
#[derive(Debug, Clone, Copy, PartialEq, Eq)]
pub struct Row {
    /// The point that comes first in the difference.
    pub x: usize,
    /// The other.
    pub y: usize,
    /// Whether it says "less than".
    pub is_strict: bool,
    /// How many parts of a minute the difference is at most.
    pub c: i32,
    /// Whether the text says it of y - x, as "at least".
    pub is_turned: bool,
    /// The line that says so, where there is a text.
    pub line: Option<usize>,
}

/// Reads a text of time rows.
///
/// # Errors
///
/// The first fault, with line and column.
pub fn read(text: &str) -> Result<Times, Fault> {
    let mut lines = lines(text).peekable();
    let mut names = opening::names(text, &mut lines, Holds::Times, MOST_VERTICES)?;
    let mut free = vec![false; names.list.len()];
    let (mut found, mut labels) = (Vec::new(), Labels::default());
    for line in lines {
        let line = line?.with_minutes();
        labels.take(&line, &names)?;
        if let Some(fault) = opening::late(&line, Holds::Times) {
            return Err(fault);
        }
        if line.begins_with("free") {
            names.free(&line)?.into_iter().for_each(|(name, _)| free[name] = true);
            continue;
        }
        if line.begins_with(constants::WORD) {
            names.constants.define(&line, &names.list, &labels)?;
            continue;
        }
        let line = names.constants.put_in(line)?;
        let is_alone = line.begins_with("row");
        if is_alone && line.tokens.len() == 1 {
            return Err(line.fault(line.end, "a difference is missing after row"));
        }
        let said = statement(&line, usize::from(is_alone))?;
        say(&line, &said, is_alone, &names, &mut found)?;
    }
    names.constants.unused()?;
    let found = Times { labels, ..whole(names.list.clone(), &found)? };
    if let Some(name) = found.unlimited().into_iter().find(|&name| !free[name]) {
        let (name, (line, column)) = (&names.list[name], names.places[name]);
        let what = format!("no row speaks of {name}; a line free {name} says that this is meant");
        return Err(Fault::new(line, column, what));
    }
    Ok(found)
}

/// A row in the numbers of its line; `column` is that of its sign.
struct Found {
    row: Row,
    number: Exact,
    column: usize,
}

/// The rows in parts of a minute that are fine enough for each of them.
fn whole(names: Vec<String>, found: &[Found]) -> Result<Times, Fault> {
    let mut parts = 1;
    for Found { row, number, column } in found {
        parts = multiple(parts, number.denominator);
        if parts > LARGEST_DENOMINATOR {
            let what = "with the rows before, parts of a minute get finer than thousandths";
            return Err(Fault::new(row.line.unwrap_or(1), *column, what));
        }
    }
    let mut rows = Vec::new();
    for Found { row, number, column } in found {
        let number = number.times(parts).numerator;
        if number.abs() > i64::from(LARGEST) {
            let what = format!(
                "this is {number} times 1/{parts} of a minute, and {LARGEST} times is the most"
            );
            return Err(Fault::new(row.line.unwrap_or(1), *column, what));
        }
        rows.push(Row { c: number as i32, ..*row });
    }
    Ok(Times { names, rows, parts: parts as i32, labels: Labels::default() })
}

fn say(
    line: &Line,
    said: &Statement,
    is_alone: bool,
    names: &Names,
    rows: &mut Vec<Found>,
) -> Result<(), Fault> {
    let mut named = Vec::new();
    for term in &said.terms {
        named.push(names.used(line, term.column, &term.name, term.is_counted)?);
    }
    let ([first, second], [first_at, second_at]) = (&said.terms[..], &named[..]) else {
        let column = said.terms.get(2).unwrap_or(&said.terms[0]).column;
        let start = "a time row has two names: end - start <= 30";
        let what = match &said.terms[..] {
            [only] => format!(
                "{start}; give the beginning of the day one too, and write {} - day",
                only.name
            ),
            _ => start.to_string(),
        };
        return Err(line.fault(column, what));
    };
    for term in [first, second] {
        if !term.coefficient.is_one() {
            return Err(
                line.fault(term.column, "names of time rows are taken once, not more often")
            );
        }
    }
    if first.coefficient == second.coefficient {
        let what = "a time row is about a difference: end - start <= 30";
        return Err(line.fault(second.column, what));
    }
    if first_at == second_at && !is_alone {
        let name = &first.name;
        let what = format!("{name} - {name} is 0; begin the line with row if that is meant");
        return Err(line.fault(second.column, what));
    }
    let (x, y) = match first.coefficient.numerator > 0 {
        true => (*first_at, *second_at),
        false => (*second_at, *first_at),
    };
    if said.lower.is_none() && said.upper.is_none() {
        let what = "a sign is missing: <=, <, >=, > or = says how far they are apart";
        return Err(line.fault(line.end, what));
    }
    let lower =
        said.lower.map(|limit| (y, x, true, Limit { number: limit.number.turned(), ..limit }));
    let upper = said.upper.map(|limit| (x, y, false, limit));
    for (x, y, is_turned, limit) in [lower, upper].into_iter().flatten() {
        if rows.len() == MOST_ROWS {
            let what = format!("one row too many: there are {MOST_ROWS} at most");
            return Err(line.fault(line.tokens[0].column, what));
        }
        let Limit { number, is_strict, column } = limit;
        let row = Row { x, y, is_strict, c: 0, is_turned, line: Some(line.number) };
        let is_same = |other: &&Found| other.row.says_what(&row) && other.number == number;
        if let Some(before) = rows.iter().find(is_same).filter(|_| !is_alone) {
            let place = before.row.line.unwrap_or_default();
            let what = format!("line {place} says the same; begin with row to have both");
            return Err(line.fault(column, what));
        }
        rows.push(Found { row, number, column });
    }
    Ok(())
}

impl Row {
    /// Whether another row says the same.
    fn says_what(&self, other: &Row) -> bool {
        let said = |row: &Row| (row.x, row.y, row.is_strict, row.c);
        said(self) == said(other)
    }

    /// Which limit of the difference that is shown it is.
    #[must_use]
    pub fn side(&self) -> Side {
        if self.is_turned {
            Side::Lower
        } else {
            Side::Upper
        }
    }
}

impl Times {
    /// The rows of these words, with the names t0, t1 and so on. There are
    /// none where the words are refused.
    #[must_use]
    pub fn from_words(words: &[i32]) -> Option<Times> {
        let [n @ 1..=64, m @ 0..=256, rest @ ..] = words else { return None };
        if rest.len() != 4 * *m as usize {
            return None;
        }
        let rows = rest.chunks_exact(4).map(|row| {
            let &[x, y, strict @ 0..=1, c] = row else { return None };
            if !(0..*n).contains(&x) || !(0..*n).contains(&y) || !(-LARGEST..=LARGEST).contains(&c)
            {
                return None;
            }
            let (x, y) = (x as usize, y as usize);
            Some(Row { x, y, is_strict: strict == 1, c, is_turned: false, line: None })
        });
        Some(Times {
            names: (0..*n).map(|number| format!("t{number}")).collect(),
            rows: rows.collect::<Option<Vec<Row>>>()?,
            parts: 1,
            labels: Labels::default(),
        })
    }

    /// The words of the rows.
    #[must_use]
    pub fn words(&self) -> Vec<i32> {
        let mut words = vec![self.names.len() as i32, self.rows.len() as i32];
        for row in &self.rows {
            words.extend([row.x as i32, row.y as i32, i32::from(row.is_strict), row.c]);
        }
        words
    }

    /// A row as text: `end - start <= 30`.
    #[must_use]
    pub fn row_text(&self, row: &Row) -> String {
        let [x, y] = [row.x, row.y].map(|point| &self.names[point]);
        let c = Exact::new(row.c.into(), self.parts.into());
        match (row.is_turned, row.is_strict) {
            (false, false) => format!("{x} - {y} <= {c}"),
            (false, true) => format!("{x} - {y} < {c}"),
            (true, false) => format!("{y} - {x} >= {}", c.turned()),
            (true, true) => format!("{y} - {x} > {}", c.turned()),
        }
    }

    /// The rows that a line makes: two where it has two signs, or `=`.
    #[must_use]
    pub fn of_line(&self, line: usize) -> Vec<usize> {
        (0..self.rows.len()).filter(|&row| self.rows[row].line == Some(line)).collect()
    }

    /// The names that no row speaks of.
    fn unlimited(&self) -> Vec<usize> {
        let names = 0..self.names.len();
        names.filter(|&name| self.rows.iter().all(|row| row.x != name && row.y != name)).collect()
    }

    /// All rows as text, a line each, below their names. The text has the same
    /// words.
    #[must_use]
    pub fn text(&self) -> String {
        let mut lines = opening::opened(Holds::Times, &self.names);
        lines += &opening::free(self.unlimited().into_iter().map(|name| &self.names[name]));
        for (place, row) in self.rows.iter().enumerate() {
            let is_alone =
                row.x == row.y || self.rows[..place].iter().any(|other| other.says_what(row));
            let start = if is_alone { "row " } else { "" };
            lines += &format!("{start}{}\n", self.row_text(row));
        }
        lines
    }
}
