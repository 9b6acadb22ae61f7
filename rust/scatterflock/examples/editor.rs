//! An editor of a script for three zones in a row: the first stands at 60
//! degrees or less, the last at 180 or more, and no step is over 50. That cannot
//! be, so each limit is switched off in turn, and on again.
//!
//! `cargo run --example editor` prints what is possible without it.

use scatterflock::{Session, Side, SwitchRefusal};

/// Three zones, then the steps from each to the next.
const SCRIPT: [i32; 23] = [
    3, 2, // three variables, two rows
    -1, 1, 0, // zone 1 less zone 0
    0, -1, 1, // zone 2 less zone 1
    2, 0, 60, // zone 0 is at most 60
    0, 0, 0, // zone 1 is free
    1, 180, 0, // zone 2 is at least 180
    2, 0, 50, // both steps are at most 50
    2, 0, 50,
];
const LIMITS: [(usize, Side); 4] =
    [(0, Side::Upper), (2, Side::Lower), (3, Side::Upper), (4, Side::Upper)];

/// Checks the whole script, and then without each of its limits.
pub fn main() -> Result<(), SwitchRefusal> {
    let mut session = Session::open(&SCRIPT).expect("the script is a problem");
    for (variable, side) in LIMITS {
        session.switch_on(variable, side)?;
    }
    println!("all of it: {}", session.check());
    for (variable, side) in LIMITS {
        session.switch_off(variable, side)?;
        println!("without {side:?} {variable}: {}", session.check());
        session.switch_on(variable, side)?;
    }
    Ok(())
}
