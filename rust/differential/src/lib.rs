//! The archive against `reference`: solver, checker, slices, sessions, traces,
//! first violations, SMT-LIB texts both ways, time rows, days' files and their
//! sheets, on random problems of every family, every word compared.
//!
//! - [`archive`]: the archive's functions, linked or served
//! - `lent`: lends an output with guards around it and looks at all of it
//! - `limits`: one limit problem through the solver and the checker, and each
//!   limit that a "cannot" names left out in turn
//! - `slices`: one limit problem through a start and continues
//! - `sessions`: one limit problem through a script of switches and checks
//! - `traces`: one limit problem's own trace, and bent ones against its run
//! - `smtlib`: one limit problem as SMT-LIB text
//! - `texts`: one such text, read back
//! - `violations`: the first violation of one limit problem, and of sessions
//! - `times`: time rows through the time solver, and evidence about them
//! - `wide`: wide evidence, found and bent, through its checker
//! - `bundles`: a day's file through its reader, its writer and its text
//! - `sheets`: a day's file through its auditor's sheet
//! - `report`: many of them, counted

pub mod archive;
pub mod bundles;
mod lent;
pub mod limits;
pub mod report;
pub mod sessions;
pub mod sheets;
pub mod slices;
pub mod smtlib;
pub mod texts;
pub mod times;
pub mod traces;
pub mod violations;
pub mod wide;
