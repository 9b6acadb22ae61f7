//! The run, and the answer's words.

use crate::search::{entering, leaving, Violated};
use crate::tableau::{Amount, Seat, Tableau};
use crate::words::judged;

/// Writes the answer to the problem and returns 0, or returns the number of
/// the refusal and writes nothing. Words past the answer are not touched.
pub fn solve(words: &[i32], out: &mut [i64]) -> u32 {
    let parts = match judged(words) {
        Ok(parts) => parts,
        Err(refusal) => return refusal,
    };
    let Some(out) = out.get_mut(..3 + 2 * (parts.n + parts.m)) else {
        return 7;
    };
    run(&mut Tableau::start(parts), Tableau::pivot, out);
    0
}

/// Runs to the end and writes the answer. The pivot says whether it stayed in
/// range.
pub fn run(
    tableau: &mut Tableau,
    pivot: impl Fn(&mut Tableau, usize, usize, Amount) -> bool,
    out: &mut [i64],
) {
    out.fill(0);
    let variables = tableau.n + tableau.m;
    if let Some(crossed) = tableau.limits.crossed(variables) {
        out[0] = 2;
        out[3 + crossed] = 1;
        out[3 + variables + crossed] = 1;
        return;
    }
    let mut pivots = 0;
    out[0] = loop {
        let Some(violated) = leaving(tableau) else {
            write_point(tableau, out);
            break 1;
        };
        let Some(column) = entering(tableau, violated) else {
            write_multipliers(tableau, violated, &mut out[3..]);
            break 2;
        };
        if !pivot(tableau, violated.row, column, violated.limit) {
            break 3;
        }
        pivots += 1;
    };
    out[1] = pivots;
}

fn write_point(tableau: &Tableau, out: &mut [i64]) {
    let variables = tableau.n + tableau.m;
    out[2] = tableau.common;
    let (plains, smalls) = out[3..].split_at_mut(variables);
    for (variable, seat) in tableau.seats[..variables].iter().enumerate() {
        let scaled = match *seat {
            Seat::Row(row) => tableau.scaled(usize::from(row)),
            Seat::Column(column) => tableau.scaled_column(usize::from(column)),
        };
        plains[variable] = scaled.plain;
        smalls[variable] = scaled.small;
    }
}

/// The common number on the violated limit, the size of each entry on the
/// limit that holds its variable in place.
fn write_multipliers(tableau: &Tableau, violated: Violated, out: &mut [i64]) {
    let (lower, upper) = out.split_at_mut(tableau.n + tableau.m);
    if violated.rises {
        lower[violated.variable] = tableau.common;
    } else {
        upper[violated.variable] = tableau.common;
    }
    for (&variable, &entry) in tableau.nonbasic.iter().zip(tableau.row(violated.row)) {
        if (entry > 0) == violated.rises {
            upper[variable] = entry.abs();
        } else {
            lower[variable] = entry.abs();
        }
    }
}
