//! A session: limits that are switched on and off, and checks.
//!
//! Renders "Switching limits" of docs/RULES.md.

use crate::answer::{Answer, Verdict};
use crate::pair::Pair;
use crate::problem::{Limits, Problem, Variable};
use crate::run::{conflict_of_one, State, Step, Violation};
use crate::tableau::Tableau;
use std::collections::BTreeMap;

/// A problem, which of its limits are on, and the tableau and the values that
/// the next check starts from.
#[derive(Clone)]
pub struct Session {
    given: Problem,
    /// Of each variable: the lower limit, the upper limit.
    on: Vec<[bool; 2]>,
    tableau: Tableau,
    values: BTreeMap<Variable, Pair>,
}

impl Session {
    /// The session of a problem with every limit off and every problem variable
    /// nonbasic at 0.
    ///
    /// # Errors
    ///
    /// The refusal of words that are no problem.
    pub fn open(words: &[i32]) -> Result<Session, u32> {
        let given = Problem::read(words)?;
        Ok(Session {
            on: vec![[false; 2]; given.variables()],
            tableau: Tableau::start(&given),
            values: (0..given.n).map(|variable| (variable, Pair::whole(0, 0))).collect(),
            given,
        })
    }

    /// The session with a limit switched on or off.
    ///
    /// # Errors
    ///
    /// 41: there is no such variable. 42: it has no limit on that side. 43, 44:
    /// nothing would change, as the limit is on, or is off.
    pub fn switch(&self, variable: u32, upper: bool, on: bool) -> Result<Session, u32> {
        let variable = variable as usize;
        let Some(limits) = self.given.limits.get(variable) else {
            return Err(41);
        };
        let limit = if upper { limits.upper } else { limits.lower };
        if limit.is_none() {
            return Err(42);
        }
        match (on, self.is_on(variable, upper)) {
            (true, true) => return Err(43),
            (false, false) => return Err(44),
            _ => {}
        }
        let mut next = self.clone();
        next.on[variable][usize::from(upper)] = on;
        next.settle();
        Ok(next)
    }

    /// Each nonbasic variable that is outside of a live limit moves to it,
    /// unless its live limits conflict.
    fn settle(&mut self) {
        let live = self.live();
        for (&variable, value) in &mut self.values {
            let limits = &live.limits[variable];
            if limits.crossed() {
                continue;
            }
            if let Some(least) = limits.least().filter(|least| *value < *least) {
                *value = least;
            }
            if let Some(most) = limits.most().filter(|most| *value > *most) {
                *value = most;
            }
        }
    }

    /// Writes the answer over the live limits, and gives 0 and the session as
    /// the run left it: its last completed tableau and values. Where the output
    /// is too short it gives 7 and the session as it was.
    pub fn check(&self, out: &mut [i64]) -> (u32, Session) {
        let length = self.given.answer_length();
        if out.len() < length {
            return (7, self.clone());
        }
        let (session, answer) = self.checked();
        out[..length].copy_from_slice(&answer.words(self.given.variables()));
        (0, session)
    }

    fn checked(&self) -> (Session, Answer) {
        let live = self.live();
        if let Some(crossed) = live.limits.iter().position(Limits::crossed) {
            let verdict = Verdict::Cannot(conflict_of_one(&live, crossed));
            return (self.clone(), Answer { verdict, pivots: 0 });
        }
        let mut state = self.state(&live);
        let mut pivots = 0;
        let verdict = loop {
            match state.step() {
                Step::Moved(next) => state = next,
                Step::Ended(verdict) => break verdict,
            }
            pivots += 1;
        };
        let State { tableau, values, .. } = state;
        let session = Session { tableau, values, ..self.clone() };
        (session, Answer { verdict, pivots })
    }

    /// The rows, and the limits that are on.
    fn live(&self) -> Problem {
        self.given.keeping(|variable, upper| self.is_on(variable, upper))
    }

    fn state<'a>(&self, live: &'a Problem) -> State<'a> {
        State { problem: live, tableau: self.tableau.clone(), values: self.values.clone() }
    }

    /// The first violation as the session stands, by the live limits, or none.
    pub fn violation(&self) -> Option<Violation> {
        self.state(&self.live()).first_violation()
    }

    /// Whether a limit is on. One that is missing never is.
    pub fn is_on(&self, variable: usize, upper: bool) -> bool {
        self.on[variable][usize::from(upper)]
    }

    /// Whether the live limits of some variable conflict.
    pub fn is_crossed(&self) -> bool {
        self.live().limits.iter().any(Limits::crossed)
    }

    /// D, and D times the value of each variable: plain parts, small parts.
    pub fn values(&self) -> (i128, Vec<i128>, Vec<i128>) {
        self.state(&self.given).numerators()
    }
}
