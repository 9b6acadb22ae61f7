//! The rules of docs/RULES.md in plain safe Rust: what speed is measured
//! against. It has no heap, and no number is wider than 64 bits.
//!
//! - `words`: the words of a limit problem, and refusals 1 to 6 and 10
//! - `tableau`: the tableau, its start and its pivot
//! - `search`: which variable leaves, which enters
//! - `solver`: the run, and the answer's words
//! - `session`: limits that are switched on and off, and checks
//! - `evidence`: the checker
//! - `times`: time rows

mod evidence;
mod search;
mod session;
mod solver;
mod tableau;
mod times;
mod words;

pub use evidence::check;
pub use session::Session;
pub use solver::solve;
pub use times::times;
