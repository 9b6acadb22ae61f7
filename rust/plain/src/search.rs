//! Which variable leaves, which enters: both in the order of the variables.

use crate::tableau::{Amount, Seat, Tableau};

/// A basic variable outside its limits.
#[derive(Clone, Copy)]
pub struct Violated {
    pub variable: usize,
    pub row: usize,
    /// Below its lower limit, so it must rise; else it must fall.
    pub rises: bool,
    pub limit: Amount,
}

/// The lowest basic variable outside its limits.
pub fn leaving(tableau: &Tableau) -> Option<Violated> {
    let limits = &tableau.limits;
    for variable in 0..tableau.n + tableau.m {
        let Seat::Row(row) = tableau.seats[variable] else {
            continue;
        };
        let row = usize::from(row);
        let scaled = tableau.scaled(row);
        if limits.has_lower[variable] && scaled < limits.least(variable, tableau.common) {
            let limit = limits.least(variable, 1);
            return Some(Violated { variable, row, rises: true, limit });
        }
        if limits.has_upper[variable] && scaled > limits.most(variable, tableau.common) {
            let limit = limits.most(variable, 1);
            return Some(Violated { variable, row, rises: false, limit });
        }
    }
    None
}

/// The column of the lowest nonbasic variable that can move the right way.
pub fn entering(tableau: &Tableau, violated: Violated) -> Option<usize> {
    let limits = &tableau.limits;
    let row = tableau.row(violated.row);
    for variable in 0..tableau.n + tableau.m {
        let Seat::Column(column) = tableau.seats[variable] else {
            continue;
        };
        let column = usize::from(column);
        let entry = row[column];
        if entry == 0 {
            continue;
        }
        let value = Amount { plain: tableau.values[column], small: tableau.smalls[column] };
        let free = if (entry > 0) == violated.rises {
            !limits.has_upper[variable] || value < limits.most(variable, 1)
        } else {
            !limits.has_lower[variable] || value > limits.least(variable, 1)
        };
        if free {
            return Some(column);
        }
    }
    None
}
