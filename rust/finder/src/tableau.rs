//! A tableau in lowest common form, with numbers of any size.

use crate::problem::{Pair, Problem};
use crate::whole::Whole;

/// `common` times a basic variable is the sum of its row's entries, each times
/// the nonbasic variable of its column.
pub struct Tableau {
    pub common: Whole,
    /// The variable of each row.
    pub basic: Vec<usize>,
    /// The variable of each column.
    pub nonbasic: Vec<usize>,
    /// By row and then by column.
    pub entries: Vec<Vec<Whole>>,
}

impl Tableau {
    pub fn start(problem: &Problem) -> Tableau {
        let numbers = |row: &Vec<i32>| row.iter().map(|&number| Whole::from(number)).collect();
        Tableau {
            common: Whole::from(1),
            basic: (problem.n..problem.count()).collect(),
            nonbasic: (0..problem.n).collect(),
            entries: problem.rows.iter().map(numbers).collect(),
        }
    }

    /// `common` times the value of a row, where columns have these values.
    pub fn value(&self, row: usize, values: &[Pair]) -> [Whole; 2] {
        let sum = |part: fn(&Pair) -> i32| {
            let terms = self.entries[row].iter().zip(values);
            let terms = terms.filter(|(_, value)| part(value) != 0);
            terms.fold(Whole::ZERO, |sum, (entry, value)| &sum + &(entry * &part(value).into()))
        };
        [sum(|value| value.0), sum(|value| value.1)]
    }

    /// The row is solved for the variable of the column, and put in its place in
    /// all others. With p for the entry of both, c beside it in the row, b in the
    /// column and a in neither, the new entries over `common` times p are
    /// `common` squared, `-common` c, `common` b and p a - b c.
    pub fn pivot(&mut self, row: usize, column: usize) {
        let pivot = self.entries[row][column].clone();
        let solved = self.entries[row].clone();
        let mut common = &self.common * &pivot;
        for (at, entries) in self.entries.iter_mut().enumerate() {
            let factor = entries[column].clone();
            for (other, entry) in entries.iter_mut().enumerate() {
                *entry = match (at == row, other == column) {
                    (true, true) => &self.common * &self.common,
                    (true, false) => -(&self.common * &solved[other]),
                    (false, true) => &self.common * &factor,
                    (false, false) => &(&pivot * entry) - &(&factor * &solved[other]),
                };
            }
        }
        self.reduce(&mut common, &pivot);
        self.common = common;
        std::mem::swap(&mut self.basic[row], &mut self.nonbasic[column]);
    }

    /// All numbers over their greatest common divisor, with the sign of the pivot.
    /// The old common number is mostly that divisor, or close to it.
    fn reduce(&mut self, common: &mut Whole, pivot: &Whole) {
        let mut divisor = common.divisor(&(&self.common * &self.common));
        for entry in self.entries.iter().flatten() {
            let (_, rest) = entry.divided(&divisor);
            if rest.sign() != 0 {
                divisor = divisor.divisor(&rest);
            }
        }
        let by = if pivot.sign() < 0 { -divisor } else { divisor };
        for number in self.entries.iter_mut().flatten().chain([common]) {
            *number = number.divided(&by).0;
        }
    }
}
