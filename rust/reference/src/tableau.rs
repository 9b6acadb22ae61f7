//! Basic variables as sums over nonbasic ones.
//!
//! Rows are kept as fractions, so there is no common denominator to carry
//! along. It is asked for at the end of each exchange: the least number D
//! that clears every fraction. D and the entries times D then have no common
//! divisor but 1, which is the lowest common form of docs/RULES.md. For if a
//! prime divides D, some entry's bottom has that prime as often as D has it,
//! and then D times that entry does not have it at all.

use crate::fraction::{common_multiple, Fraction};
use crate::problem::{Problem, Variable, LARGEST_NUMBER};
use std::collections::BTreeMap;

/// A fraction for each nonbasic variable. A missing variable counts 0 times.
pub type Sum = BTreeMap<Variable, Fraction>;

/// Each basic variable with the sum that it equals.
#[derive(Debug, Clone)]
pub struct Tableau {
    pub rows: BTreeMap<Variable, Sum>,
}

/// One pivot, and the tableau before it in lowest common form.
#[derive(Debug, Clone, PartialEq, Eq)]
pub struct Pivot {
    /// D.
    pub common: i128,
    /// D times each entry: rows by basic variable, columns by nonbasic one.
    pub entries: Vec<Vec<i128>>,
    /// The leaving variable's row.
    pub row: usize,
    /// The entering variable's column.
    pub column: usize,
}

impl Tableau {
    /// The rows as the problem states them.
    pub fn start(problem: &Problem) -> Tableau {
        let sum = |row: &Vec<i128>| row.iter().map(|&c| Fraction::whole(c)).enumerate().collect();
        Tableau { rows: (problem.n..).zip(problem.rows.iter().map(sum)).collect() }
    }

    /// D: the least number that makes every entry whole.
    pub fn common(&self) -> i128 {
        self.entries().map(Fraction::bottom).fold(1, common_multiple)
    }

    /// Whether D or an entry times D is beyond the largest number.
    pub fn out_of_range(&self) -> bool {
        let common = self.common();
        common > LARGEST_NUMBER
            || self.entries().any(|entry| entry.times_multiple(common).abs() > LARGEST_NUMBER)
    }

    /// The pivot that makes `entering` basic in place of `leaving`.
    pub fn pivot(&self, leaving: Variable, entering: Variable) -> Pivot {
        let common = self.common();
        let numbers = |sum: &Sum| sum.values().map(|e| e.times_multiple(common)).collect();
        Pivot {
            common,
            entries: self.rows.values().map(numbers).collect(),
            row: self.rows.keys().take_while(|&&basic| basic != leaving).count(),
            column: self.rows[&leaving].keys().take_while(|&&other| other != entering).count(),
        }
    }

    fn entries(&self) -> impl Iterator<Item = Fraction> + '_ {
        self.rows.values().flat_map(|sum| sum.values().copied())
    }

    /// The same equations with `entering` basic in place of `leaving`.
    pub fn exchanged(&self, leaving: Variable, entering: Variable) -> Tableau {
        let solved = solved(&self.rows[&leaving], leaving, entering);
        let mut rows: BTreeMap<Variable, Sum> = self
            .rows
            .iter()
            .filter(|(&basic, _)| basic != leaving)
            .map(|(&basic, sum)| (basic, substituted(sum, entering, &solved)))
            .collect();
        rows.insert(entering, solved);
        Tableau { rows }
    }
}

/// From `leaving = .. + e * entering + ..` the sum that `entering` equals:
/// `leaving / e` and each other term divided by `-e`.
fn solved(row: &Sum, leaving: Variable, entering: Variable) -> Sum {
    let pivot = row[&entering];
    let mut sum: Sum = row
        .iter()
        .filter(|(&variable, _)| variable != entering)
        .map(|(&variable, &entry)| (variable, -(entry / pivot)))
        .collect();
    sum.insert(leaving, Fraction::whole(1) / pivot);
    sum
}

/// The sum with `entering` replaced by what it equals.
fn substituted(sum: &Sum, entering: Variable, solved: &Sum) -> Sum {
    let factor = sum[&entering];
    let mut result = sum.clone();
    result.remove(&entering);
    for (&variable, &entry) in solved {
        let before = result.get(&variable).copied().unwrap_or(Fraction::whole(0));
        result.insert(variable, before + factor * entry);
    }
    result
}

#[cfg(test)]
mod tests {
    use super::*;

    fn number(tableau: &Tableau, basic: Variable, nonbasic: Variable) -> i128 {
        tableau.rows[&basic][&nonbasic].times_multiple(tableau.common())
    }

    /// Rows 2 = 2 x0 - x1 and 3 = -x0 + 2 x1.
    fn two_rows() -> Tableau {
        let words = [2, 2, 2, -1, -1, 2, 0, 0, 0, 0, 0, 0, 0, 0, 0, 0, 0, 0];
        Tableau::start(&Problem::read(&words).unwrap())
    }

    #[test]
    fn one_exchange_by_hand() {
        let after = two_rows().exchanged(2, 0);
        assert_eq!(after.common(), 2);
        assert_eq!(number(&after, 0, 2), 1);
        assert_eq!(number(&after, 0, 1), 1);
        assert_eq!(number(&after, 3, 2), -1);
        assert_eq!(number(&after, 3, 1), 3);
    }

    #[test]
    fn a_pivot_below_zero_leaves_the_common_number_above_zero() {
        let after = two_rows().exchanged(3, 0);
        assert_eq!(after.common(), 1);
        assert_eq!(number(&after, 0, 3), -1);
        assert_eq!(number(&after, 0, 1), 2);
        assert_eq!(number(&after, 2, 3), -2);
        assert_eq!(number(&after, 2, 1), 3);
    }

    #[test]
    fn exchanging_back_restores_the_rows() {
        let start = two_rows();
        let back = start.exchanged(2, 1).exchanged(1, 2);
        assert_eq!(back.rows, start.rows);
    }

    fn single(common: i128, entry: i128) -> Tableau {
        let sum = Sum::from([(0, Fraction::new(entry, common)), (1, Fraction::new(1, common))]);
        Tableau { rows: BTreeMap::from([(2, sum)]) }
    }

    #[test]
    fn the_range_ends_at_the_largest_number_on_both_sides() {
        assert!(!single(1, LARGEST_NUMBER).out_of_range());
        assert!(!single(1, -LARGEST_NUMBER).out_of_range());
        assert!(single(1, LARGEST_NUMBER + 1).out_of_range());
        assert!(single(1, -LARGEST_NUMBER - 1).out_of_range());
        assert!(!single(LARGEST_NUMBER, 1).out_of_range());
        assert!(single(LARGEST_NUMBER + 1, 1).out_of_range());
    }
}
