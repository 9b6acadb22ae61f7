//! Limits, time rows and answers as text, as docs/formats/text.md has them: a
//! library, for programs that read such texts themselves. It needs nothing else, the
//! archive neither. The words of what is read are those that the wrapper
//! `rust/scatterflock` takes.
//!
//! ```
//! let read = text::limits::read("names x y\nx >= 2.5\ny = 3\nx + y <= 6\n")?;
//! assert_eq!(read.words(), [2, 1, 1, 1, 1, 5, 0, 3, 6, 6, 2, 0, 12]);
//! // Values and limits are counted in halves, and are shown as the text has them.
//! assert_eq!(read.parts, 2);
//! assert_eq!(read.limit_text(0, text::limits::Side::Lower), Some("x >= 2.5".to_string()));
//!
//! let fault = text::limits::read("names x\nx >= 2.5 degC\n").unwrap_err();
//! assert_eq!((fault.line, fault.column), (2, 10));
//! # Ok::<(), text::Fault>(())
//! ```
//!
//! - `exact`: numbers of a text, decimals and fractions among them
//! - `fault`: what is wrong, with line and column
//! - `tokens`: a line's tokens
//! - `opening`: the lines that say what a text holds and declare its names
//! - `names`, [`nearest`]: declared names, and the one that was probably meant
//! - `statement`: sums of names and numbers, and the signs between them
//! - `labels`: names of lines
//! - `constants`: names of numbers
//! - [`left_out`]: comments that read as a limit
//! - [`limits`]: a limit problem as text
//! - [`times`]: time rows as text
//! - [`answer`]: an answer as text
//! - [`numbers`]: bare numbers

pub mod answer;
mod comments;
mod constants;
mod exact;
mod fault;
mod labels;
pub mod limits;
mod names;
mod near;
pub mod numbers;
mod opening;
mod statement;
pub mod times;
mod tokens;

pub use comments::left_out;
pub use exact::Exact;
pub use fault::Fault;
pub use labels::Labels;
pub use near::nearest;
pub use opening::Holds;
