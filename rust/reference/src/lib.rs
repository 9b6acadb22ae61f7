//! The rules of docs/RULES.md once more, written to be read.
//!
//! Every other implementation is compared with this one. It was written from
//! the rules alone and prefers the plainest calculation to the quickest: a
//! tableau of fractions in lowest terms, whole numbers of 128 bits, and maps
//! ordered by variable, so that "the lowest" is "the first".
//!
//! - `problem`: the words of a limit problem, and refusals 1 to 6 and 10
//! - `fraction`: exact fractions
//! - `pair`: values, of a plain part and a small one
//! - `tableau`: basic variables as sums over nonbasic ones, and the exchange
//! - `run`: the limit solver
//! - `slices`: the same run, some pivots at a time
//! - `trace`: the pivots of a run, and another solver's held against them
//! - `session`: limits that are switched on and off, and checks
//! - `answer`: how a run ended, and the words that say so
//! - `evidence`: the checker, which uses nothing of the run
//! - `actual`: the fractions that an answer stands for
//! - `decision`: whether fractions meet a problem, however large the numbers, by
//!   the rule's own steps or by those of the highest numbers
//! - `wide`: the one division that this takes
//! - `idle`: whether a "cannot" names a limit for nothing
//! - `wide_evidence`: the checker of wide evidence, in halves of its own
//! - `times`: time rows, and a judge of the time solver's output
//! - `times_evidence`: the checker of anybody's times and cycles
//! - `program`: the text that the programs print
//! - `bundle`: a day's file, read, written and printed
//! - `smtlib`: a limit problem as SMT-LIB text, and back
//! - `sheet`: the auditor's sheet of a day's file

mod actual;
mod answer;
mod bundle;
mod decision;
mod evidence;
mod fraction;
mod idle;
mod pair;
mod problem;
mod program;
mod run;
mod session;
mod sheet;
mod slices;
mod smtlib;
mod tableau;
mod times;
mod times_evidence;
mod trace;
mod wide;
mod wide_evidence;

pub use actual::meets;
pub use bundle::{bundle_read, bundle_write, day, day_text, Contents};
pub use decision::{can_be_met, decided, Numbers};
pub use evidence::check;
pub use idle::{idle, named, Named};
pub use program::{lab, respond};
pub use run::{first_violation, pivots, solve, solve_within, violations, Violation};
pub use session::Session;
pub use sheet::{sheet, sheet_text};
pub use slices::{Continued, Slice};
pub use smtlib::{smtlib_read, smtlib_write};
pub use tableau::Pivot;
pub use times::{times, times_is_right};
pub use times_evidence::check_times;
pub use trace::{replay, trace, Replayed};
pub use wide_evidence::check_wide;
