//! What is wrong with a text, and where.

use std::fmt;

/// What is wrong with a text, and where. Lines and columns count from 1; a
/// column is a character.
#[derive(Debug, Clone, PartialEq, Eq)]
pub struct Fault {
    /// The line.
    pub line: usize,
    /// The column.
    pub column: usize,
    /// What is wrong, in words.
    pub what: String,
}

impl Fault {
    pub(crate) fn new(line: usize, column: usize, what: impl Into<String>) -> Fault {
        Fault { line, column, what: what.into() }
    }
}

impl fmt::Display for Fault {
    fn fmt(&self, to: &mut fmt::Formatter) -> fmt::Result {
        write!(to, "{}:{}: {}", self.line, self.column, self.what)
    }
}

impl std::error::Error for Fault {}
