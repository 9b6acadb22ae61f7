//! Limits as lines give them to a variable or a row.

use crate::exact::Exact;
use crate::fault::Fault;
use crate::limits::Side;
use crate::statement;
use crate::tokens::Line;

/// A row, or a variable, while the text is read.
#[derive(Default)]
pub struct Limited {
    pub limits: [Option<Found>; 2],
    /// The line that says that it has none.
    pub free: Option<usize>,
}

/// A limit as its line has it once the coefficients are whole, and where.
#[derive(Clone, Copy)]
pub struct Found {
    pub number: Exact,
    pub is_strict: bool,
    pub line: usize,
    pub column: usize,
}

/// Gives a variable or a row the limits of a line; `is_turned` where the line
/// is about its opposite.
pub fn limited(
    line: &Line,
    to: &mut Limited,
    limits: [Option<statement::Limit>; 2],
    is_turned: bool,
    name: &str,
) -> Result<(), Fault> {
    for (side, limit) in Side::BOTH.into_iter().zip(limits) {
        let Some(limit) = limit else { continue };
        let (side, number) = match (is_turned, side) {
            (false, side) => (side, limit.number),
            (true, Side::Lower) => (Side::Upper, limit.number.turned()),
            (true, Side::Upper) => (Side::Lower, limit.number.turned()),
        };
        if let Some(before) = to.free {
            let what = format!("{name} is said to be free, in line {before}");
            return Err(line.fault(limit.column, what));
        }
        if let Some(Found { line: before, .. }) = to.limits[side as usize] {
            let what = match name {
                "this sum" => format!("line {before} limits {name} on the same side"),
                name => format!("{name} has its {} limit already, in line {before}", side.name()),
            };
            return Err(line.fault(limit.column, format!("{what}; begin with row to have both")));
        }
        let is_strict = limit.is_strict;
        let (line, column) = (line.number, limit.column);
        to.limits[side as usize] = Some(Found { number, is_strict, line, column });
    }
    Ok(())
}
