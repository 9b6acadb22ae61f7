//! The first violation over the pipe: its numbers go as words of the output.

use crate::{reply, Function, Session};

/// What [`first_violation`] and [`session_violation`] hand back.
pub struct Violation {
    /// 0, or the number of a refusal.
    pub refused: u32,
    /// Which variable is outside its limits.
    pub variable: u32,
    /// Whether one is.
    pub violated: bool,
    /// Whether it has to rise.
    pub rises: bool,
    /// What the next two numbers are over.
    pub denominator: i64,
    /// By how much it is outside.
    pub shortfall: i64,
    /// .. and by how many small amounts.
    pub small: i64,
}

/// Shows the first violation at the start of a limit problem.
pub fn first_violation(words: &[i32]) -> Violation {
    ask(Function::FirstViolation, words, 0)
}

/// Shows the first violation of a session as it stands.
pub fn session_violation(session: Session) -> Violation {
    ask(Function::SessionViolation, &[], session.number)
}

fn ask(function: Function, words: &[i32], session: u64) -> Violation {
    let mut out = [-1; 6];
    let refused = reply(function, words, &mut out, [session, 0, 0, 0]).number;
    let [variable, violated, rises, denominator, shortfall, small] = out;
    Violation {
        refused,
        variable: variable as u32,
        violated: violated != 0,
        rises: rises != 0,
        denominator,
        shortfall,
        small,
    }
}
