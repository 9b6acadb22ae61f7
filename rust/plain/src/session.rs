//! A session: limits that are switched on and off, and checks.

use crate::solver::run;
use crate::tableau::{Amount, Seat, Tableau, MOST_COLUMNS, MOST_VARIABLES};
use crate::words::judged;

/// A problem, which of its limits are on, and the tableau and the values that
/// the next check starts from. An earlier one is kept by cloning it.
#[derive(Clone)]
pub struct Session {
    /// Its limits are those that are on.
    tableau: Tableau,
    /// Whether each variable was given a lower limit, and an upper one.
    given_lower: [bool; MOST_VARIABLES],
    given_upper: [bool; MOST_VARIABLES],
}

impl Session {
    /// The session of a problem with every limit off and every problem variable
    /// nonbasic at 0.
    ///
    /// # Errors
    ///
    /// The number of the refusal of words that are no problem.
    pub fn open(words: &[i32]) -> Result<Session, u32> {
        let mut tableau = Tableau::start(judged(words)?);
        let (given_lower, given_upper) = (tableau.limits.has_lower, tableau.limits.has_upper);
        tableau.limits.has_lower = [false; MOST_VARIABLES];
        tableau.limits.has_upper = [false; MOST_VARIABLES];
        tableau.values = [0; MOST_COLUMNS];
        tableau.smalls = [0; MOST_COLUMNS];
        Ok(Session { tableau, given_lower, given_upper })
    }

    /// Switches a limit on or off and returns 0, or returns 41 to 44 and leaves
    /// all as it was.
    pub fn switch(&mut self, variable: u32, upper: bool, on: bool) -> u32 {
        let variable = variable as usize;
        if variable >= self.tableau.n + self.tableau.m {
            return 41;
        }
        let limits = &mut self.tableau.limits;
        let (given, is_on) = if upper {
            (self.given_upper[variable], &mut limits.has_upper[variable])
        } else {
            (self.given_lower[variable], &mut limits.has_lower[variable])
        };
        match (given, *is_on, on) {
            (false, _, _) => return 42,
            (_, true, true) => return 43,
            (_, false, false) => return 44,
            _ => *is_on = on,
        }
        self.settle(variable);
        0
    }

    /// A nonbasic variable that is outside of its limits goes to the one that it
    /// is outside of, unless they leave it nothing.
    fn settle(&mut self, variable: usize) {
        let Tableau { limits, seats, values, smalls, .. } = &mut self.tableau;
        let Seat::Column(column) = seats[variable] else {
            return;
        };
        if limits.is_crossed(variable) {
            return;
        }
        let (plain, small) = (&mut values[usize::from(column)], &mut smalls[usize::from(column)]);
        let moved = limits.inside(variable, Amount { plain: *plain, small: *small });
        (*plain, *small) = (moved.plain, moved.small);
    }

    /// Writes the answer over the limits that are on, from where the session
    /// stands, and returns 0; or returns 7 where the output is too short.
    pub fn check(&mut self, out: &mut [i64]) -> u32 {
        let Some(out) = out.get_mut(..3 + 2 * (self.tableau.n + self.tableau.m)) else {
            return 7;
        };
        run(&mut self.tableau, Tableau::pivot_or_stay, out);
        0
    }
}
