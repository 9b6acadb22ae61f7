//! The limit solver.
//!
//! Renders "The run" of docs/RULES.md.

use crate::actual;
use crate::answer::{Answer, Multipliers, Verdict};
use crate::fraction::Fraction;
use crate::pair::Pair;
use crate::problem::{Limits, Problem, Variable, MOST_ROWS};
use crate::tableau::{Pivot, Tableau};
use std::collections::BTreeMap;

/// Writes the answer to the problem and returns 0, or returns the number of
/// the refusal and writes nothing. Words past the answer are not touched.
pub fn solve(words: &[i32], out: &mut [i64]) -> u32 {
    solve_within(MOST_ROWS, words, out)
}

/// The same of a problem with at most so many rows.
pub fn solve_within(most_rows: u32, words: &[i32], out: &mut [i64]) -> u32 {
    let problem = match Problem::read_within(most_rows, words) {
        Ok(problem) => problem,
        Err(refusal) => return refusal,
    };
    let length = problem.answer_length();
    if out.len() < length {
        return 7;
    }
    let answer = run(&problem);
    out[..length].copy_from_slice(&answer.words(problem.variables()));
    0
}

/// The first violation of each step of a problem's run, in order: that of the
/// step that ends in "cannot" or "out of range" too. Refused words and crossed
/// limits have no step.
pub fn violations(words: &[i32]) -> Vec<Violation> {
    let Ok(problem) = Problem::read(words) else {
        return Vec::new();
    };
    if problem.limits.iter().any(Limits::crossed) {
        return Vec::new();
    }
    let mut state = State::start(&problem);
    let mut found = Vec::new();
    while let Some(violated) = state.lowest_violated() {
        found.push(state.told(violated));
        match state.step() {
            Step::Moved(next) => state = next,
            Step::Ended(_) => break,
        }
    }
    found
}

/// The first violation at a problem's start, or none. Whether limits cross is
/// not asked.
///
/// # Errors
///
/// The refusal of words that are no problem.
pub fn first_violation(words: &[i32]) -> Result<Option<Violation>, u32> {
    let problem = Problem::read(words)?;
    Ok(State::start(&problem).first_violation())
}

/// Each pivot that a problem's run makes or tries, in order: the one that leads
/// out of range too. Refused words and crossed limits have none.
pub fn pivots(words: &[i32]) -> Vec<Pivot> {
    let Ok(problem) = Problem::read(words) else {
        return Vec::new();
    };
    if problem.limits.iter().any(Limits::crossed) {
        return Vec::new();
    }
    let mut state = State::start(&problem);
    let mut found = Vec::new();
    while let Some(violated) = state.lowest_violated() {
        let Some(entering) = state.lowest_suitable(violated) else {
            break;
        };
        found.push(state.tableau.pivot(violated.variable, entering));
        match state.step() {
            Step::Moved(next) => state = next,
            Step::Ended(_) => break,
        }
    }
    found
}

/// The whole run of a problem.
pub fn run(problem: &Problem) -> Answer {
    if let Some(crossed) = problem.limits.iter().position(Limits::crossed) {
        return Answer { verdict: Verdict::Cannot(conflict_of_one(problem, crossed)), pivots: 0 };
    }
    let mut state = State::start(problem);
    let mut pivots = 0;
    loop {
        match state.step() {
            Step::Moved(next) => state = next,
            Step::Ended(verdict) => return Answer { verdict, pivots },
        }
        pivots += 1;
    }
}

/// A variable whose limits are crossed refutes both.
pub fn conflict_of_one(problem: &Problem, crossed: Variable) -> Multipliers {
    let mut multipliers = Multipliers::none(problem.variables());
    multipliers.lower[crossed] = 1;
    multipliers.upper[crossed] = 1;
    multipliers
}

/// Which way a variable has to move, or would have to.
#[derive(Debug, Clone, Copy, PartialEq, Eq)]
enum Way {
    Up,
    Down,
}

/// Of the basic variables that are outside, the lowest-numbered, as a desk shows it.
#[derive(Debug, Clone, Copy, PartialEq, Eq)]
pub struct Violation {
    /// Its number.
    pub variable: usize,
    /// Whether it is below its lower limit; else it is above its upper one.
    pub below: bool,
    /// D.
    pub over: i128,
    /// D times how far its value is from that limit: plain part, small part.
    pub shortfall: (i128, i128),
}

/// A basic variable outside its limits.
#[derive(Debug, Clone, Copy)]
struct Violated {
    variable: Variable,
    way: Way,
    limit: Pair,
}

/// What comes after a state.
pub enum Step<'a> {
    Moved(State<'a>),
    Ended(Verdict),
}

/// The equations, and what each nonbasic variable sits at.
pub struct State<'a> {
    pub problem: &'a Problem,
    pub tableau: Tableau,
    pub values: BTreeMap<Variable, Pair>,
}

impl<'a> State<'a> {
    pub fn start(problem: &'a Problem) -> State<'a> {
        let value = |variable| start_value(&problem.limits[variable]);
        State {
            problem,
            tableau: Tableau::start(problem),
            values: (0..problem.n).map(|variable| (variable, value(variable))).collect(),
        }
    }

    pub fn step(&self) -> Step<'a> {
        let Some(violated) = self.lowest_violated() else {
            return Step::Ended(self.can());
        };
        let Some(entering) = self.lowest_suitable(violated) else {
            return Step::Ended(Verdict::Cannot(self.multipliers(violated)));
        };
        let tableau = self.tableau.exchanged(violated.variable, entering);
        if tableau.out_of_range() {
            return Step::Ended(Verdict::Range);
        }
        let mut values = self.values.clone();
        values.remove(&entering);
        values.insert(violated.variable, violated.limit);
        Step::Moved(State { problem: self.problem, tableau, values })
    }

    /// The variables that leave and enter in a step that pivots.
    pub fn exchange(&self) -> Option<(Variable, Variable)> {
        let violated = self.lowest_violated()?;
        Some((violated.variable, self.lowest_suitable(violated)?))
    }

    pub fn first_violation(&self) -> Option<Violation> {
        self.lowest_violated().map(|violated| self.told(violated))
    }

    fn lowest_violated(&self) -> Option<Violated> {
        self.tableau.rows.keys().find_map(|&variable| self.violation(variable))
    }

    fn violation(&self, variable: Variable) -> Option<Violated> {
        let value = self.value(variable);
        let limits = &self.problem.limits[variable];
        let violated = |way, limit| Some(Violated { variable, way, limit });
        match (limits.least(), limits.most()) {
            (Some(least), _) if value < least => violated(Way::Up, least),
            (_, Some(most)) if value > most => violated(Way::Down, most),
            _ => None,
        }
    }

    fn told(&self, violated: Violated) -> Violation {
        let over = self.tableau.common();
        let value = self.value(violated.variable);
        let missing = match violated.way {
            Way::Up => violated.limit + -value,
            Way::Down => value + -violated.limit,
        };
        Violation {
            variable: violated.variable,
            below: violated.way == Way::Up,
            over,
            shortfall: missing.times_multiple(over),
        }
    }

    fn lowest_suitable(&self, violated: Violated) -> Option<Variable> {
        let row = &self.tableau.rows[&violated.variable];
        row.iter()
            .find(|(&variable, &entry)| {
                way_needed(violated.way, entry).is_some_and(|way| self.free(variable, way))
            })
            .map(|(&variable, _)| variable)
    }

    /// Whether a nonbasic variable may still move that way.
    fn free(&self, variable: Variable, way: Way) -> bool {
        let value = self.values[&variable];
        let limits = &self.problem.limits[variable];
        match way {
            Way::Up => limits.most().is_none_or(|most| value < most),
            Way::Down => limits.least().is_none_or(|least| value > least),
        }
    }

    /// A nonbasic variable's value, or the one that a basic variable's row gives.
    fn value(&self, variable: Variable) -> Pair {
        match self.tableau.rows.get(&variable) {
            None => self.values[&variable],
            Some(row) => row
                .iter()
                .map(|(other, &entry)| self.values[other].times(entry))
                .fold(Pair::whole(0, 0), |sum, term| sum + term),
        }
    }

    /// D, and D times each variable's value: plain parts, small parts.
    pub fn numerators(&self) -> (i128, Vec<i128>, Vec<i128>) {
        let over = self.tableau.common();
        let numerator = |variable| self.value(variable).times_multiple(over);
        let (plain, small) = (0..self.problem.variables()).map(numerator).unzip();
        (over, plain, small)
    }

    fn can(&self) -> Verdict {
        let (over, plain, small) = self.numerators();
        let is_met = actual::holds(self.problem, over, &plain, &small);
        assert!(is_met, "a small amount of 1 / 17,179,869,177 meets every limit");
        Verdict::Can { over, plain, small }
    }

    /// The evidence when nothing suits: the violated limit against the limits
    /// that hold every variable of its row in place.
    fn multipliers(&self, violated: Violated) -> Multipliers {
        let common = self.tableau.common();
        let mut multipliers = Multipliers::none(self.problem.variables());
        match violated.way {
            Way::Up => multipliers.lower[violated.variable] = common,
            Way::Down => multipliers.upper[violated.variable] = common,
        }
        for (&variable, &entry) in &self.tableau.rows[&violated.variable] {
            let size = entry.times_multiple(common).abs();
            match way_needed(violated.way, entry) {
                Some(Way::Up) => multipliers.upper[variable] = size,
                Some(Way::Down) => multipliers.lower[variable] = size,
                None => {}
            }
        }
        multipliers
    }
}

/// 0 where the limits allow it, else the pair within them that is nearest to 0.
fn start_value(limits: &Limits) -> Pair {
    let nil = Pair::whole(0, 0);
    match (limits.least(), limits.most()) {
        (Some(least), _) if least > nil => least,
        (_, Some(most)) if most < nil => most,
        _ => nil,
    }
}

/// Which way a nonbasic variable with this entry moves a basic one that way.
fn way_needed(basic: Way, entry: Fraction) -> Option<Way> {
    match (basic, entry.sign()) {
        (_, 0) => None,
        (Way::Up, 1) | (Way::Down, -1) => Some(Way::Up),
        _ => Some(Way::Down),
    }
}
