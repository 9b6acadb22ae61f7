//! Names of lines: `budget: zone2 + zone3 <= 260`.

use crate::fault::Fault;
use crate::names::{Names, RESERVED};
use crate::tokens::Line;

/// Words that an answer has in the place of a line's name.
const TAKEN: [&str; 3] = ["line", "lower", "upper"];

/// The names of lines, by the number of the line.
#[derive(Debug, Clone, Default, PartialEq, Eq)]
pub struct Labels(Vec<(usize, String)>);

impl Labels {
    /// Takes the name of a line, where it has one.
    pub(crate) fn take(&mut self, line: &Line, names: &Names) -> Result<(), Fault> {
        let Some((label, column)) = &line.label else { return Ok(()) };
        let first = line.first_name().unwrap_or_default();
        let what = if ["names", "times", "free", "let"].contains(&first) {
            format!("a line {first} has no name of its own")
        } else if RESERVED.contains(&label.as_str()) || TAKEN.contains(&label.as_str()) {
            format!("{label} is no name of a line: answers and texts use it otherwise")
        } else if names.list.iter().any(|name| name.eq_ignore_ascii_case(label)) {
            format!("{label} is among the names, and cannot be that of a line")
        } else if names.constants.names().any(|name| name.eq_ignore_ascii_case(label)) {
            format!("{label} is a constant, and cannot be the name of a line")
        } else if let Some(before) = self.line_of(label) {
            format!("line {before} is called {label} already")
        } else {
            self.0.push((line.number, label.clone()));
            return Ok(());
        };
        Err(line.fault(*column, what))
    }

    /// What a line is called.
    #[must_use]
    pub fn of_line(&self, line: usize) -> Option<&str> {
        self.0.iter().find(|(number, _)| *number == line).map(|(_, label)| label.as_str())
    }

    /// The line that is called so, but for small and capital letters.
    pub(crate) fn like(&self, label: &str) -> Option<usize> {
        let found = self.0.iter().find(|(_, other)| other.eq_ignore_ascii_case(label));
        found.map(|(number, _)| *number)
    }

    /// The line that is called so.
    #[must_use]
    pub fn line_of(&self, label: &str) -> Option<usize> {
        self.0.iter().find(|(_, other)| other == label).map(|(number, _)| *number)
    }
}
