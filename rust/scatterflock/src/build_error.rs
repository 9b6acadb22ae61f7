//! What is wrong with a step of building.

use crate::sizes::{MOST_ROWS, MOST_TIME_ROWS, MOST_VARIABLES, MOST_VERTICES};
use std::error::Error;
use std::fmt;

/// Why a problem, or time rows, cannot be built so.
#[derive(Debug, Clone, PartialEq, Eq, Hash)]
#[non_exhaustive]
pub enum BuildError {
    /// The number of variables is out of its range.
    Variables(usize),
    /// There is no room for one more row.
    Rows,
    /// A row has another number of coefficients than there are variables.
    RowLength {
        /// How many it has.
        given: usize,
        /// How many variables there are.
        variables: usize,
    },
    /// A coefficient is out of its range.
    Coefficient(i32),
    /// Every coefficient of a row is 0.
    BlankRow,
    /// There is no variable of this number.
    NoVariable(usize),
    /// A limit is out of its range.
    Limit(i32),
    /// The variable has a limit on this side already.
    LimitTwice(usize),
    /// No variable has this name.
    NoName(String),
    /// A name is given to two variables, or comes twice in a sum.
    NameTwice(String),
    /// A limit has a range without ends, and would say nothing.
    Unlimited,
    /// The number of points in time is out of its range.
    Vertices(usize),
    /// There is no room for one more time row.
    TimeRows,
    /// There is no point in time of this number.
    NoVertex(usize),
    /// The length of a time row is out of its range.
    Length(i32),
}

impl fmt::Display for BuildError {
    fn fmt(&self, to: &mut fmt::Formatter) -> fmt::Result {
        match self {
            BuildError::Variables(n) => {
                write!(to, "{n} variables: there are 1 to {MOST_VARIABLES}")
            }
            BuildError::Rows => write!(to, "there are {MOST_ROWS} rows at most"),
            BuildError::RowLength { given, variables } => {
                write!(to, "a row of {given} coefficients, for {variables} variables")
            }
            BuildError::Coefficient(number) => {
                write!(to, "{number}: a coefficient is from -1,000 to 1,000")
            }
            BuildError::BlankRow => to.write_str("all coefficients of a row are 0"),
            BuildError::NoVariable(number) => write!(to, "there is no variable {number}"),
            BuildError::Limit(number) => write!(to, "{number}: a limit is from -30,000 to 30,000"),
            BuildError::LimitTwice(number) => {
                write!(to, "variable {number} has a limit on that side already")
            }
            BuildError::NoName(name) => write!(to, "there is no variable {name}"),
            BuildError::NameTwice(name) => write!(to, "{name} comes twice"),
            BuildError::Unlimited => to.write_str("a limit has a lower or an upper end, or both"),
            BuildError::Vertices(n) => {
                write!(to, "{n} points in time: there are 1 to {MOST_VERTICES}")
            }
            BuildError::TimeRows => write!(to, "there are {MOST_TIME_ROWS} time rows at most"),
            BuildError::NoVertex(number) => write!(to, "there is no point in time {number}"),
            BuildError::Length(number) => {
                write!(to, "{number}: the length of a time row is from -30,000 to 30,000")
            }
        }
    }
}

impl Error for BuildError {}
