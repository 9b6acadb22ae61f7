//! Problems to test and measure with.
//!
//! - `draft`: a limit problem in parts, and its words
//! - `worked`: the worked cases of docs/RULES.md
//! - `published`: problems of special interest, with their answers
//! - `random`: the random numbers that everything below is made of
//! - `limits`: random limit problems, by family
//! - `division`: which pivots are settled by division
//! - `oven`: sparse ones that look like the zones of an oven
//! - `points`: problems around one point or two, that times are measured with
//! - `strict`: strict marks, and limits that touch
//! - `damage`: words that are nearly right, and words that are not
//! - `evidence`: answers that are nearly right
//! - `times`: random time rows, by family
//! - `times_evidence`: times and cycles that are nearly right
//! - `sessions`: scripts of switches and checks
//! - `bundles`: days' files, and calls of their writer
//! - `traces`: worked traces, and such that are nearly right
//! - `audits`: days' files as an auditor has them
//! - `wide`: dense problems beyond the range, and wide evidence that is nearly right
//! - `smtlib`: SMT-LIB texts that say the same, and such that are nearly right

pub mod audits;
pub mod bundles;
pub mod damage;
pub mod division;
pub mod draft;
pub mod evidence;
pub mod limits;
mod oven;
pub mod points;
pub mod published;
pub mod random;
pub mod sessions;
pub mod smtlib;
pub mod strict;
pub mod times;
pub mod times_evidence;
pub mod traces;
pub mod wide;
pub mod worked;
