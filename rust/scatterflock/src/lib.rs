//! Exact answers about limits and times, from proved code.
//!
//! The archive `libscatterflock.a` holds functions whose results are proved;
//! include/scatterflock.h says what they promise. This crate calls
//! them safely and gives their numbers names. docs/RULES.md says what the
//! words mean.
//!
//! Three limits on two variables, x + y >= 2, 2x - y >= 0 and -x + 2y >= 1:
//!
//! ```
//! use scatterflock::{Judgement, Problem, Verdict};
//!
//! let problem = Problem::new(2)?
//!     .row(&[1, 1])?
//!     .at_least(2, 2)?
//!     .row(&[2, -1])?
//!     .at_least(3, 0)?
//!     .row(&[-1, 2])?
//!     .at_least(4, 1)?;
//! let answer = problem.solve();
//! assert_eq!(answer.pivots, 2);
//! let (numerators, small) = (vec![3, 3, 6, 3, 3], vec![0; 5]);
//! assert_eq!(answer.verdict, Verdict::Can { over: 3, numerators, small });
//!
//! // Both x and y are 3/3. An answer is evidence that can be checked alone.
//! let evidence = answer.evidence().expect("it is not out of range");
//! assert_eq!(problem.check(&evidence)?, Judgement::Accepted);
//! # Ok::<(), Box<dyn std::error::Error>>(())
//! ```
//!
//! The same as the words that the archive takes (docs/formats/problem.md):
//!
//! ```
//! use scatterflock::solve;
//!
//! let words = [
//!     2, 3, // two variables, three rows
//!     1, 1, // x + y
//!     2, -1, // 2x - y
//!     -1, 2, // -x + 2y
//!     0, 0, 0, // no limit on x
//!     0, 0, 0, // no limit on y
//!     1, 2, 0, // the first row is at least 2
//!     1, 0, 0, // the second at least 0
//!     1, 1, 0, // the third at least 1
//! ];
//! assert_eq!(solve(&words)?.to_string(), "can, after 2 pivots: 3/3, 3/3, 6/3, 3/3, 3/3");
//! # Ok::<(), scatterflock::Refusal>(())
//! ```
//!
//! - [`Problem`], [`solve()`], [`solve_within`], [`check`]: limit problems, answers
//!   and their judgement; [`Problem::named`]: one by names; [`Problem::to_smtlib`],
//!   [`Problem::from_smtlib`]: one as text for other solvers, and back
//! - [`Problem::decide`], [`WideAnswer`], [`check_wide`]: the same in numbers of
//!   128 bits, where a run would leave its range
//! - [`Fractions`]: values as numbers over one denominator
//! - [`Slice`]: a run that is made some pivots at a time
//! - [`Session`]: limits that are switched on and off, and checked again
//! - [`Replayed`], [`replay`], [`trace()`]: another solver's trace against a run,
//!   and a run's own
//! - [`Violation`], [`first_violation()`]: what a run would move first, and by how
//!   much
//! - [`TimeRows`], [`times()`], [`check_times`]: time rows, and evidence about them
//! - [`Bundle`], [`day()`]: a day's problems in one file
//! - [`Sheet`], [`sheet()`]: their totals, for an auditor
//! - [`Refusal`], [`TimesRefusal`], [`SwitchRefusal`], [`BundleRefusal`],
//!   [`SmtlibRefusal`]: why words, switches, files or texts are refused;
//!   [`number_text`]: what any number of the archive says
//! - [`sizes`]: how large everything may be
//! - [`raw`]: the archive's functions as they are, over lent words
//!
//! Problems as people write them, with names and decimals, are read by the library
//! `rust/text`: the words of what it reads are those of [`Problem::from_words`].
//!
//! The archive is linked into the program. Where it is taken from, build.rs
//! says.

mod answer;
mod build_error;
mod bundle;
mod bundle_refusal;
mod fractions;
mod named;
mod numbers;
mod problem;
pub mod raw;
mod refusal;
mod rows;
mod session;
mod sheet;
pub mod sizes;
mod slice;
mod smtlib;
mod times;
mod trace;
mod violation;
mod wide;

pub use answer::{check, solve, solve_within, Answer, Judgement, Verdict};
pub use build_error::BuildError;
pub use bundle::{day, Bundle};
pub use bundle_refusal::BundleRefusal;
pub use fractions::Fractions;
pub use numbers::number_text;
pub use problem::{Limit, Problem, Side};
pub use refusal::{Refusal, SwitchRefusal, TimesRefusal};
pub use rows::TimeRows;
pub use session::Session;
pub use sheet::{sheet, Named, Sheet};
pub use slice::Slice;
pub use smtlib::SmtlibRefusal;
pub use times::{check_times, times, Schedule, Time};
pub use trace::{replay, trace, Replayed, TraceWord};
pub use violation::{first_violation, Violation};
pub use wide::{check_wide, widened, WideAnswer, WideVerdict};
