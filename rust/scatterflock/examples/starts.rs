//! Three ovens that start one after another: each at least 30 minutes after
//! the one before, and the last less than so many minutes after the first.
//!
//! `cargo run --example starts` prints when each may start.

use scatterflock::{BuildError, Schedule, TimeRows};

/// Asks for a day that is just long enough, and for one that is not.
pub fn main() -> Result<(), BuildError> {
    for minutes in [61, 60] {
        let rows =
            TimeRows::new(3)?.at_most(0, 1, -30)?.at_most(1, 2, -30)?.below(2, 0, minutes)?;
        match rows.solve() {
            schedule @ Schedule::Times(_) => println!("within {minutes} minutes: {schedule}"),
            Schedule::Cycle(rows) => println!("within {minutes} minutes: no, for rows {rows:?}"),
            _ => println!("another answer"),
        }
    }
    Ok(())
}
