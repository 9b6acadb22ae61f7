//! A limit problem as text, and its words.
//!
//! - `reading`: from a text
//! - `shown`: as a text

mod reading;
mod shown;

pub use reading::read;

use crate::exact::Exact;
use crate::labels::Labels;
use crate::statement;

/// The most names.
pub const MOST_VARIABLES: usize = 8;
/// The most rows.
pub const MOST_ROWS: usize = 24;
/// The largest coefficient.
pub const LARGEST_COEFFICIENT: i32 = statement::LARGEST_COEFFICIENT as i32;
/// The largest limit.
pub const LARGEST_LIMIT: i32 = statement::LARGEST_LIMIT as i32;

/// A limit problem with names.
#[derive(Debug, Clone, PartialEq, Eq)]
pub struct Limits {
    /// The name of each variable.
    pub names: Vec<String>,
    /// A coefficient for each variable, row by row.
    pub rows: Vec<Vec<i32>>,
    /// Lower and upper limit of each variable, then of each row.
    pub limits: Vec<[Option<Limit>; 2]>,
    /// How many parts a unit of the text has: values and limits are counted in
    /// these. It is 1 where the limits of names are whole.
    pub parts: i32,
    /// How many times each row is taken, so that its limits are whole in parts.
    pub taken: Vec<i32>,
    /// What each line of the text says, in its own numbers.
    pub said: Vec<Own>,
    /// What its lines are called.
    pub labels: Labels,
}

/// What a line says of a sum of names, in its own numbers.
#[derive(Debug, Clone, PartialEq, Eq)]
pub struct Own {
    /// The line.
    pub line: usize,
    /// A coefficient for each name.
    pub coefficients: Vec<Exact>,
    /// Lower and upper limit, and whether each is strict.
    pub limits: [Option<(Exact, bool)>; 2],
    /// Whether its lower limit is an upper one of the variable or row that it is
    /// about.
    pub is_turned: bool,
}

/// A limit, and the line that sets it.
#[derive(Debug, Clone, Copy, PartialEq, Eq)]
pub struct Limit {
    /// The limit.
    pub number: i32,
    /// Whether the number itself is left out.
    pub is_strict: bool,
    /// The line, where there is a text.
    pub line: Option<usize>,
}

/// The lower or the upper limit.
#[derive(Debug, Clone, Copy, PartialEq, Eq)]
pub enum Side {
    /// At least.
    Lower = 0,
    /// At most.
    Upper = 1,
}

impl Side {
    /// Both.
    pub const BOTH: [Side; 2] = [Side::Lower, Side::Upper];

    /// `lower` or `upper`.
    #[must_use]
    pub fn name(self) -> &'static str {
        match self {
            Side::Lower => "lower",
            Side::Upper => "upper",
        }
    }

    /// The bit of a kind that says that there is such a limit. That of a strict
    /// one is four times as much.
    fn bit(self) -> i32 {
        1 << self as i32
    }
}

impl Limit {
    /// The sign between what is limited and the number.
    #[must_use]
    pub fn sign(self, side: Side) -> &'static str {
        match (side, self.is_strict) {
            (Side::Lower, false) => ">=",
            (Side::Lower, true) => ">",
            (Side::Upper, false) => "<=",
            (Side::Upper, true) => "<",
        }
    }
}

impl Limits {
    /// The problem of these words, with the names x0, x1 and so on. There is
    /// none where the words are refused for anything but a row of zeros.
    #[must_use]
    pub fn from_words(words: &[i32]) -> Option<Limits> {
        let [n @ 1..=8, m @ 0..=24, rest @ ..] = words else { return None };
        let (n, m) = (*n as usize, *m as usize);
        if rest.len() != m * n + 3 * (n + m) {
            return None;
        }
        let (coefficients, limits) = rest.split_at(m * n);
        if coefficients.iter().any(|number| number.unsigned_abs() > LARGEST_COEFFICIENT as u32) {
            return None;
        }
        let limits = limits.chunks_exact(3).map(|three| {
            let [kind @ 0..=15, numbers @ ..] = three else { return None };
            let mut found = [None; 2];
            for side in Side::BOTH {
                let number = numbers[side as usize];
                let is_there = kind & side.bit() != 0;
                let is_strict = kind & (4 * side.bit()) != 0;
                let is_empty = number == 0 && !is_strict;
                if !is_there && !is_empty || number.unsigned_abs() > LARGEST_LIMIT as u32 {
                    return None;
                }
                let limit = Limit { number, is_strict, line: None };
                found[side as usize] = is_there.then_some(limit);
            }
            Some(found)
        });
        Some(Limits {
            names: (0..n).map(|number| format!("x{number}")).collect(),
            rows: coefficients.chunks_exact(n).map(<[i32]>::to_vec).collect(),
            limits: limits.collect::<Option<Vec<_>>>()?,
            parts: 1,
            taken: vec![1; m],
            said: vec![],
            labels: Labels::default(),
        })
    }

    /// The words of the problem.
    #[must_use]
    pub fn words(&self) -> Vec<i32> {
        let mut words = vec![self.names.len() as i32, self.rows.len() as i32];
        words.extend(self.rows.iter().flatten());
        for limits in &self.limits {
            let kinds = Side::BOTH.map(|side| {
                let bits = |limit: Limit| side.bit() * if limit.is_strict { 5 } else { 1 };
                limits[side as usize].map_or(0, bits)
            });
            let numbers = limits.map(|limit| limit.map_or(0, |limit| limit.number));
            words.extend([kinds[0] + kinds[1], numbers[0], numbers[1]]);
        }
        words
    }

    /// The names that nothing limits: they have no limit, and stand in no row
    /// that has one, or in one alone, which can be met then whatever it says. That
    /// row comes with them. A problem with a row of zeros is refused, and none are
    /// told of it.
    #[must_use]
    pub fn unlimited(&self) -> Vec<(usize, Option<usize>)> {
        let n = self.names.len();
        let is_blank = |row: &Vec<i32>| row.iter().all(|&coefficient| coefficient == 0);
        if self.rows.iter().any(is_blank) {
            return vec![];
        }
        let limited = |row: &usize| self.limits[n + row] != [None; 2];
        let open = (0..n).filter(|&name| self.limits[name] == [None; 2]);
        let found = open.filter_map(|name| {
            let has = |row: &usize| self.rows[*row][name] != 0;
            let rows: Vec<usize> = (0..self.rows.len()).filter(limited).filter(has).collect();
            let others = |row: usize| self.rows[row].iter().filter(|&&c| c != 0).count() > 1;
            match rows[..] {
                [] => Some((name, None)),
                [row] if others(row) => Some((name, Some(row))),
                _ => None,
            }
        });
        found.collect()
    }

    /// What a variable, or a row, is made of: a coefficient for each name. A row
    /// that is taken several times is shown once.
    #[must_use]
    pub fn coefficients(&self, variable: usize) -> Vec<i32> {
        let n = self.names.len();
        match variable.checked_sub(n) {
            Some(row) => self.rows[row].iter().map(|number| number / self.taken[row]).collect(),
            None => (0..n).map(|other| i32::from(other == variable)).collect(),
        }
    }

    /// How many times a variable, or a row, is taken in the words.
    #[must_use]
    pub fn times(&self, variable: usize) -> i64 {
        let row = variable.checked_sub(self.names.len());
        row.map_or(1, |row| self.taken[row].into())
    }

    /// How many parts of the words are one of the text, for a variable or a row.
    #[must_use]
    pub fn scale(&self, variable: usize) -> i64 {
        i64::from(self.parts) * self.times(variable)
    }

    /// The same without one limit.
    #[must_use]
    pub fn without(&self, variable: usize, side: Side) -> Limits {
        let mut rest = self.clone();
        let limit = rest.limits[variable][side as usize].take();
        let line = limit.and_then(|limit| limit.line);
        for own in rest.said.iter_mut().filter(|own| Some(own.line) == line) {
            let side = side as usize;
            own.limits[if own.is_turned { 1 - side } else { side }] = None;
        }
        rest
    }

    /// A limit as the text has it.
    #[must_use]
    pub fn limit(&self, variable: usize, side: Side) -> Option<Exact> {
        let limit = self.limits.get(variable)?[side as usize]?;
        Some(Exact::new(limit.number.into(), self.scale(variable)))
    }
}
