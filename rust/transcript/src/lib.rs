//! The mathematical definitions of the rules, function by function, in Rust.
//!
//! What is proved is proved of definitions. They are few and they compute, but
//! only as fast as a proof checker does. Here each stands once more under the
//! same name, in the same form, so that they can be run on many problems and
//! compared with `reference`, which was written from docs/RULES.md and knows
//! nothing of them.
//!
//! The tableau is one by variable: a row and a column for each of the n + m
//! variables. The row of a nonbasic variable is `den` at itself; the column of
//! a basic variable is 0. Which variable is basic is said by its seat.
//!
//! - `base`: searches, sums, tables, common divisors
//! - `value`: what a variable's value is
//! - `problem`: words, refusals, and what the words mean
//! - `tableau`: the tableau by variable, and the pivot
//! - `step`: start, leaving, entering, one step
//! - `run`: the run and the answer
//! - `evidence`: the checker
//! - `fractions`: what evidence means
//! - `idle`: the limits that a "cannot" names, and one less
//! - `comparison`: all of it against `reference`

pub mod base;
pub mod comparison;
pub mod evidence;
pub mod fractions;
pub mod idle;
pub mod problem;
pub mod run;
pub mod step;
pub mod tableau;
pub mod value;
