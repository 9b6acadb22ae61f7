//! Finds wide evidence: the run of docs/RULES.md without its range.
//!
//! Starts, searches and pivots are those of "The run" there, and its tableau is
//! in lowest common form; but its numbers may have any size, so that every
//! run ends in "can" or "cannot". What comes out is evidence for the proved
//! checker of wide evidence, and counts for nothing before that has accepted it:
//! nothing here is proved, and nothing here has to be believed.
//!
//! - `whole`: whole numbers of any size
//! - `problem`: the limits and rows of a problem's words
//! - `tableau`: entries over one common number, and the pivot
//! - `run`: the steps, from the start to the end
//! - `evidence`: the words of what was found

mod evidence;
mod problem;
mod run;
mod tableau;
mod whole;

pub use evidence::find;
pub use whole::Whole;
