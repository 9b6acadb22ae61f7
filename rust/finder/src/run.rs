//! The run: lowest numbers leave and enter, until none leaves or none enters.

use crate::problem::{Pair, Problem};
use crate::tableau::Tableau;
use crate::whole::Whole;

/// How a run ended. Lists go by variable.
pub enum End {
    /// Values meet every limit: numerators and small parts over one number.
    Can { over: Whole, parts: [Vec<Whole>; 2] },
    /// The limits, so many times each, contradict each other: lower and upper.
    Cannot { times: [Vec<Whole>; 2] },
}

/// Which limit a variable is outside of.
const LOWER: usize = 0;
const UPPER: usize = 1;

/// Where a basic variable is outside, or where nothing is.
enum Outside {
    At { row: usize, side: usize },
    Nowhere,
}

struct Run<'a> {
    problem: &'a Problem,
    tableau: Tableau,
    /// The value of each column's variable.
    values: Vec<Pair>,
}

/// The end of a problem's run, and how many pivots it took.
pub fn run(problem: &Problem) -> (u64, End) {
    if let Some(end) = crossed(problem) {
        return (0, end);
    }
    let values = problem.limits[..problem.n].iter().map(start).collect();
    let mut run = Run { problem, tableau: Tableau::start(problem), values };
    let mut pivots = 0;
    loop {
        let Outside::At { row, side } = run.leaving() else { return (pivots, run.can()) };
        let Some(column) = run.entering(row, side) else {
            return (pivots, run.cannot(row, side));
        };
        run.exchange(row, column, side);
        pivots += 1;
    }
}

/// Limits of the lowest variable that has crossed ones.
fn crossed(problem: &Problem) -> Option<End> {
    let is_crossed = |limits: &[Option<Pair>; 2]| match limits {
        [Some(lower), Some(upper)] => lower > upper,
        _ => false,
    };
    let variable = problem.limits.iter().position(is_crossed)?;
    let mut times = [vec![Whole::ZERO; problem.count()], vec![Whole::ZERO; problem.count()]];
    times.iter_mut().for_each(|side| side[variable] = Whole::from(1));
    Some(End::Cannot { times })
}

/// Where a variable starts: at 0, or at the limit that leaves 0 out.
fn start(limits: &[Option<Pair>; 2]) -> Pair {
    match *limits {
        [Some(lower), _] if lower > (0, 0) => lower,
        [_, Some(upper)] if upper < (0, 0) => upper,
        _ => (0, 0),
    }
}

impl Run<'_> {
    /// The lowest basic variable outside of its limits, by its row.
    fn leaving(&self) -> Outside {
        let mut rows: Vec<usize> = (0..self.tableau.basic.len()).collect();
        rows.sort_by_key(|&row| self.tableau.basic[row]);
        for row in rows {
            let limits = self.problem.limits[self.tableau.basic[row]];
            if limits == [None; 2] {
                continue;
            }
            let value = self.tableau.value(row, &self.values);
            let bounds = limits.map(|limit| limit.map(|limit| self.times_common(limit)));
            if bounds[LOWER].as_ref().is_some_and(|lower| value < *lower) {
                return Outside::At { row, side: LOWER };
            }
            if bounds[UPPER].as_ref().is_some_and(|upper| value > *upper) {
                return Outside::At { row, side: UPPER };
            }
        }
        Outside::Nowhere
    }

    fn times_common(&self, (plain, small): Pair) -> [Whole; 2] {
        [plain, small].map(|part| &self.tableau.common * &Whole::from(part))
    }

    /// The side to which the variable of a column would have to move, for that of
    /// the row to come back inside. There is none for an entry of 0.
    fn way(&self, row: usize, column: usize, side: usize) -> Option<usize> {
        match self.tableau.entries[row][column].sign() {
            0 => None,
            1 => Some(1 - side),
            _ => Some(side),
        }
    }

    /// The lowest nonbasic variable that can move the row's the right way, by its
    /// column.
    fn entering(&self, row: usize, side: usize) -> Option<usize> {
        let suits = |&column: &usize| {
            let Some(way) = self.way(row, column, side) else { return false };
            let value = self.values[column];
            let limit = self.problem.limits[self.tableau.nonbasic[column]][way];
            limit.is_none_or(|limit| if way == UPPER { value < limit } else { value > limit })
        };
        let columns = (0..self.values.len()).filter(suits);
        columns.min_by_key(|&column| self.tableau.nonbasic[column])
    }

    /// Both change places, and the leaving one has the limit as its value.
    fn exchange(&mut self, row: usize, column: usize, side: usize) {
        let limit = self.problem.limits[self.tableau.basic[row]][side];
        self.values[column] = limit.expect("it is outside of it");
        self.tableau.pivot(row, column);
    }

    fn can(self) -> End {
        let mut parts =
            [vec![Whole::ZERO; self.problem.count()], vec![Whole::ZERO; self.problem.count()]];
        let of_rows = (0..self.tableau.basic.len())
            .map(|row| (self.tableau.basic[row], self.tableau.value(row, &self.values)));
        let of_columns = (0..self.values.len())
            .map(|column| (self.tableau.nonbasic[column], self.times_common(self.values[column])));
        for (variable, [plain, small]) in of_rows.chain(of_columns) {
            parts[0][variable] = plain;
            parts[1][variable] = small;
        }
        End::Can { over: self.tableau.common, parts }
    }

    /// Nothing can move the row: the limits that are in the way, and its own.
    fn cannot(self, row: usize, side: usize) -> End {
        let mut times =
            [vec![Whole::ZERO; self.problem.count()], vec![Whole::ZERO; self.problem.count()]];
        for column in 0..self.values.len() {
            if let Some(way) = self.way(row, column, side) {
                let size = self.tableau.entries[row][column].size();
                times[way][self.tableau.nonbasic[column]] = size;
            }
        }
        times[side][self.tableau.basic[row]] = self.tableau.common;
        End::Cannot { times }
    }
}
