//! Whether fractions meet a problem, however large the numbers grow.
//!
//! The steps are those of the run, or the same by the highest numbers in place of
//! the lowest, which end as well; and there is no range. The common number of
//! the tableau is not reduced: each entry is then a determinant of coefficients,
//! with at most 8 rows and columns, so that it has less than 93 bits and every
//! division is exact.

use crate::problem::{Limits, Problem, Variable};
use crate::wide::quotient;
use std::collections::BTreeMap;

/// A plain part and a small one.
type Whole = (i128, i128);

/// Which numbers leave and enter first.
#[derive(Debug, Clone, Copy, PartialEq, Eq)]
pub enum Numbers {
    /// As the rule has it.
    Lowest,
    /// The other way round: another run, with the same verdict.
    Highest,
}

struct Tableau<'a> {
    problem: &'a Problem,
    numbers: Numbers,
    common: i128,
    /// `common` times a basic variable is the sum of its entries, each times its
    /// nonbasic variable.
    rows: BTreeMap<Variable, BTreeMap<Variable, i128>>,
    values: BTreeMap<Variable, Whole>,
}

/// Whether some fractions meet every row and every limit of the problem, a
/// strict one strictly. Refused words are met by none.
pub fn can_be_met(words: &[i32]) -> bool {
    Problem::read(words).is_ok_and(|problem| is_met(&problem))
}

/// The same by a run of these numbers, and how many pivots it took. There is
/// nothing to say of refused words.
pub fn decided(words: &[i32], numbers: Numbers) -> Option<(bool, u64)> {
    Problem::read(words).ok().map(|problem| ended(&problem, numbers))
}

/// The same of what the words say.
pub fn is_met(problem: &Problem) -> bool {
    ended(problem, Numbers::Lowest).0
}

fn ended(problem: &Problem, numbers: Numbers) -> (bool, u64) {
    if problem.limits.iter().any(Limits::crossed) {
        return (false, 0);
    }
    let mut tableau = Tableau::start(problem, numbers);
    let mut pivots = 0;
    while let Some((leaving, rises)) = tableau.leaving() {
        let Some(entering) = tableau.entering(leaving, rises) else {
            return (false, pivots);
        };
        tableau.exchange(leaving, entering, rises);
        pivots += 1;
    }
    (true, pivots)
}

fn least(limits: &Limits) -> Option<Whole> {
    limits.least().map(|pair| pair.times_multiple(1))
}

fn most(limits: &Limits) -> Option<Whole> {
    limits.most().map(|pair| pair.times_multiple(1))
}

fn times(factor: i128, (plain, small): Whole) -> Whole {
    (factor * plain, factor * small)
}

impl<'a> Tableau<'a> {
    /// A row without a limit asks for nothing, and is left out.
    fn start(problem: &'a Problem, numbers: Numbers) -> Tableau<'a> {
        let nearest = |limits: &Limits| match (least(limits), most(limits)) {
            (Some(least), _) if least > (0, 0) => least,
            (_, Some(most)) if most < (0, 0) => most,
            _ => (0, 0),
        };
        let is_limited = |variable: &Variable| {
            let Limits { lower, upper } = problem.limits[*variable];
            lower.is_some() || upper.is_some()
        };
        let rows = (problem.n..).zip(&problem.rows).filter(|(variable, _)| is_limited(variable));
        let entries = |row: &Vec<i128>| row.iter().copied().enumerate().collect();
        Tableau {
            problem,
            numbers,
            common: 1,
            rows: rows.map(|(variable, row)| (variable, entries(row))).collect(),
            values: (0..problem.n).zip(problem.limits.iter().map(nearest)).collect(),
        }
    }

    /// The first basic variable outside its limits, and whether it has to rise.
    fn leaving(&self) -> Option<(Variable, bool)> {
        let outside = |(&variable, row): (&Variable, &BTreeMap<Variable, i128>)| {
            let limits = &self.problem.limits[variable];
            let terms = row.iter().map(|(other, &entry)| times(entry, self.values[other]));
            let value = terms.fold((0, 0), |sum, term| (sum.0 + term.0, sum.1 + term.1));
            if least(limits).is_some_and(|least| value < times(self.common, least)) {
                Some((variable, true))
            } else if most(limits).is_some_and(|most| value > times(self.common, most)) {
                Some((variable, false))
            } else {
                None
            }
        };
        match self.numbers {
            Numbers::Lowest => self.rows.iter().find_map(outside),
            Numbers::Highest => self.rows.iter().rev().find_map(outside),
        }
    }

    /// The first nonbasic variable that can move it the right way.
    fn entering(&self, leaving: Variable, rises: bool) -> Option<Variable> {
        let suits = |(variable, &entry): &(&Variable, &i128)| {
            let limits = &self.problem.limits[**variable];
            let value = self.values[*variable];
            match (entry.signum(), rises) {
                (0, _) => false,
                (1, true) | (-1, false) => most(limits).is_none_or(|most| value < most),
                _ => least(limits).is_none_or(|least| value > least),
            }
        };
        let row = &self.rows[&leaving];
        let found = match self.numbers {
            Numbers::Lowest => row.iter().find(suits),
            Numbers::Highest => row.iter().rev().find(suits),
        };
        found.map(|(&variable, _)| variable)
    }

    /// The two change places, and the leaving one takes its limit.
    fn exchange(&mut self, leaving: Variable, entering: Variable, rises: bool) {
        let limits = &self.problem.limits[leaving];
        let limit = if rises { least(limits) } else { most(limits) };
        self.values.remove(&entering);
        self.values.insert(leaving, limit.expect("it is violated"));
        let mut solved = self.rows.remove(&leaving).expect("it is basic");
        let pivot = solved.remove(&entering).expect("it is nonbasic");
        for row in self.rows.values_mut() {
            let factor = row.remove(&entering).expect("it is nonbasic");
            for (other, entry) in row.iter_mut() {
                *entry = quotient(pivot, *entry, factor, solved[other], self.common);
            }
            row.insert(leaving, factor);
        }
        solved.values_mut().for_each(|entry| *entry = -*entry);
        solved.insert(leaving, self.common);
        self.rows.insert(entering, solved);
        self.common = pivot.abs();
        if pivot < 0 {
            let entries = self.rows.values_mut().flat_map(BTreeMap::values_mut);
            entries.for_each(|entry| *entry = -*entry);
        }
    }
}
