//! The tableau. A row is an equation: `common` times its basic variable is the
//! sum of its entries, each times the nonbasic variable of its column.

use crate::words::{every, Parts};

pub const MOST_COLUMNS: usize = 8;
pub const MOST_ROWS: usize = 24;
pub const MOST_VARIABLES: usize = MOST_COLUMNS + MOST_ROWS;
const MOST_CELLS: usize = MOST_COLUMNS * MOST_ROWS;
const LARGEST_NUMBER: u64 = 2_147_483_647;

/// Where a variable is.
#[derive(Clone, Copy)]
pub enum Seat {
    /// Basic, at this row place.
    Row(u8),
    /// Nonbasic, at this column place.
    Column(u8),
}

/// A value, or a number of times a value: a plain part, and a part that counts
/// small amounts. The plain part is compared first.
#[derive(Clone, Copy, PartialEq, Eq, PartialOrd, Ord)]
pub struct Amount {
    pub plain: i64,
    pub small: i64,
}

const NIL: Amount = Amount { plain: 0, small: 0 };

/// The limits of all variables. A missing limit's number is not looked at.
#[derive(Clone, Copy)]
pub struct Limits {
    pub has_lower: [bool; MOST_VARIABLES],
    pub has_upper: [bool; MOST_VARIABLES],
    pub lower: [i64; MOST_VARIABLES],
    pub upper: [i64; MOST_VARIABLES],
    pub is_lower_strict: [bool; MOST_VARIABLES],
    pub is_upper_strict: [bool; MOST_VARIABLES],
    /// Whether some limit is strict. If none is, no value has a small part.
    pub some_strict: bool,
}

#[derive(Clone, Copy)]
pub struct Tableau {
    pub n: usize,
    pub m: usize,
    pub common: i64,
    /// The entry of row place i and column place j stands at i * n + j.
    pub entries: [i64; MOST_CELLS],
    /// The variable at each row place.
    pub basic: [usize; MOST_ROWS],
    /// The variable at each column place.
    pub nonbasic: [usize; MOST_COLUMNS],
    /// The place of each variable.
    pub seats: [Seat; MOST_VARIABLES],
    /// The value of the variable at each column place: plain parts.
    pub values: [i64; MOST_COLUMNS],
    /// .. and small parts.
    pub smalls: [i64; MOST_COLUMNS],
    pub limits: Limits,
}

impl Limits {
    fn read(words: &[[i32; 3]]) -> Limits {
        let mut limits = Limits {
            has_lower: [false; MOST_VARIABLES],
            has_upper: [false; MOST_VARIABLES],
            lower: [0; MOST_VARIABLES],
            upper: [0; MOST_VARIABLES],
            is_lower_strict: [false; MOST_VARIABLES],
            is_upper_strict: [false; MOST_VARIABLES],
            some_strict: false,
        };
        for (variable, &[kind, lower, upper]) in words.iter().enumerate().take(MOST_VARIABLES) {
            limits.has_lower[variable] = kind & 1 != 0;
            limits.has_upper[variable] = kind & 2 != 0;
            limits.lower[variable] = i64::from(lower);
            limits.upper[variable] = i64::from(upper);
            limits.is_lower_strict[variable] = kind & 4 != 0;
            limits.is_upper_strict[variable] = kind & 8 != 0;
            limits.some_strict |= kind > 3;
        }
        limits
    }

    /// A number of times the least that the lower limit allows: a strict one is
    /// a small amount farther in.
    pub fn least(&self, variable: usize, times: i64) -> Amount {
        let small = if self.is_lower_strict[variable] { times } else { 0 };
        Amount { plain: self.lower[variable] * times, small }
    }

    /// A number of times the most that the upper limit allows.
    pub fn most(&self, variable: usize, times: i64) -> Amount {
        let small = if self.is_upper_strict[variable] { -times } else { 0 };
        Amount { plain: self.upper[variable] * times, small }
    }

    /// The value where the limits allow it, else what they allow that is nearest.
    pub fn inside(&self, variable: usize, value: Amount) -> Amount {
        if self.has_lower[variable] && self.least(variable, 1) > value {
            self.least(variable, 1)
        } else if self.has_upper[variable] && self.most(variable, 1) < value {
            self.most(variable, 1)
        } else {
            value
        }
    }

    /// Whether the limits of a variable leave it nothing.
    pub fn is_crossed(&self, variable: usize) -> bool {
        self.has_lower[variable]
            && self.has_upper[variable]
            && self.least(variable, 1) > self.most(variable, 1)
    }

    /// The lowest variable whose limits leave it nothing.
    pub fn crossed(&self, variables: usize) -> Option<usize> {
        (0..variables).find(|&variable| self.is_crossed(variable))
    }
}

impl Tableau {
    /// The problem's rows, its own variables nonbasic.
    pub fn start(parts: Parts) -> Tableau {
        let Parts { n, m, .. } = parts;
        let limits = Limits::read(parts.limits);
        let mut tableau = Tableau {
            n,
            m,
            common: 1,
            entries: [0; MOST_CELLS],
            basic: [0; MOST_ROWS],
            nonbasic: [0; MOST_COLUMNS],
            seats: [Seat::Column(0); MOST_VARIABLES],
            values: [0; MOST_COLUMNS],
            smalls: [0; MOST_COLUMNS],
            limits,
        };
        for (entry, &coefficient) in tableau.entries.iter_mut().zip(parts.coefficients) {
            *entry = i64::from(coefficient);
        }
        for column in 0..n {
            tableau.nonbasic[column] = column;
            tableau.seats[column] = Seat::Column(column as u8);
            let start = limits.inside(column, NIL);
            tableau.values[column] = start.plain;
            tableau.smalls[column] = start.small;
        }
        for row in 0..m {
            tableau.basic[row] = n + row;
            tableau.seats[n + row] = Seat::Row(row as u8);
        }
        tableau
    }

    /// The entries of a row place.
    pub fn row(&self, row: usize) -> &[i64] {
        &self.entries[row * self.n..][..self.n]
    }

    /// `common` times the value of the variable at a row place.
    pub fn scaled(&self, row: usize) -> Amount {
        let row = self.row(row);
        let small = if self.limits.some_strict { sum(row, &self.smalls) } else { 0 };
        Amount { plain: sum(row, &self.values), small }
    }

    /// `common` times the value of the variable at a column place.
    pub fn scaled_column(&self, column: usize) -> Amount {
        let Tableau { common, values, smalls, .. } = self;
        Amount { plain: common * values[column], small: common * smalls[column] }
    }

    /// The row's variable and the column's change places, in lowest common form,
    /// and the leaving variable takes the value `limit`. It says whether no number
    /// is too large then; else the tableau is none to go on with.
    pub fn pivot(&mut self, row: usize, column: usize, limit: Amount) -> bool {
        self.solve(row, column);
        self.reduce();
        let in_range = self.in_range();
        if in_range {
            self.exchange(row, column, limit);
        }
        in_range
    }

    /// The same, but where a number would be too large all stays as it is.
    pub fn pivot_or_stay(&mut self, row: usize, column: usize, limit: Amount) -> bool {
        let (common, entries) = (self.common, self.entries);
        let in_range = self.pivot(row, column, limit);
        if !in_range {
            (self.common, self.entries) = (common, entries);
        }
        in_range
    }

    /// Every number of the next tableau, not reduced. With D the common
    /// number, p the pivot, b the entry of a row in the pivot's column and c
    /// the pivot row's in a column: a cell a becomes pa - bc, one in the
    /// pivot's column bD, one in its row -Dc, the pivot DD, and D becomes Dp.
    fn solve(&mut self, row: usize, column: usize) {
        let (n, common) = (self.n, self.common);
        let mut pivot_row = [0; MOST_COLUMNS];
        pivot_row[..n].copy_from_slice(self.row(row));
        let pivot = pivot_row[column];
        for cells in self.entries[..self.m * n].chunks_exact_mut(n) {
            let factor = cells[column];
            for (cell, entry) in cells.iter_mut().zip(&pivot_row) {
                *cell = pivot * *cell - factor * entry;
            }
            cells[column] = factor * common;
        }
        for (cell, entry) in self.entries[row * n..][..n].iter_mut().zip(&pivot_row) {
            *cell = -common * entry;
        }
        self.entries[row * n + column] = common * common;
        self.common = common * pivot;
    }

    /// Everything divided by the greatest common divisor, `common` above 0.
    fn reduce(&mut self) {
        let cells = &mut self.entries[..self.m * self.n];
        let mut divisor = self.common.unsigned_abs();
        for cell in cells.iter() {
            if divisor == 1 {
                break;
            }
            divisor = common_divisor(cell.unsigned_abs(), divisor);
        }
        let divisor = divisor as i64 * self.common.signum();
        if divisor != 1 {
            for cell in cells {
                *cell /= divisor;
            }
            self.common /= divisor;
        }
    }

    fn exchange(&mut self, row: usize, column: usize, limit: Amount) {
        let (leaving, entering) = (self.basic[row], self.nonbasic[column]);
        self.basic[row] = entering;
        self.nonbasic[column] = leaving;
        self.seats[entering] = Seat::Row(row as u8);
        self.seats[leaving] = Seat::Column(column as u8);
        self.values[column] = limit.plain;
        self.smalls[column] = limit.small;
    }

    /// Whether no number is too large.
    fn in_range(&self) -> bool {
        let cells = &self.entries[..self.m * self.n];
        self.common.unsigned_abs() <= LARGEST_NUMBER
            && every(cells, |cell| cell.unsigned_abs() <= LARGEST_NUMBER)
    }
}

/// A row's entries times the values of its columns.
fn sum(row: &[i64], values: &[i64; MOST_COLUMNS]) -> i64 {
    row.iter().zip(values).map(|(entry, value)| entry * value).sum()
}

/// Euclid's. The second number is not 0, and mostly divides the first.
fn common_divisor(one: u64, other: u64) -> u64 {
    let (mut one, mut other) = (one, other);
    while other != 0 {
        (one, other) = (other, one % other);
    }
    one
}
