//! Bare numbers: the words of a problem or of an answer, with spaces between.

use crate::fault::Fault;
use crate::tokens::short;
use std::str::FromStr;

/// Whether a text has numbers alone, comments aside: digits, and neither
/// letters nor signs of comparison.
#[must_use]
pub fn are_bare(text: &str) -> bool {
    let mut said = text.lines().flat_map(|line| line.split('#').next()).flat_map(str::chars);
    let mut has_digit = false;
    said.all(|c| {
        has_digit |= c.is_ascii_digit();
        c.is_whitespace() || c.is_ascii_digit() || matches!(c, '-' | '+' | '.' | ',')
    }) && has_digit
}

/// The numbers of a text.
///
/// # Errors
///
/// The first word that is no such number.
pub fn read<T: FromStr>(text: &str) -> Result<Vec<T>, Fault> {
    let mut numbers = Vec::new();
    for (place, line) in text.lines().enumerate() {
        let said = line.split('#').next().unwrap_or("");
        let mut column = 1;
        for word in said.split(char::is_whitespace) {
            if !word.is_empty() {
                numbers.push(number(word).map_err(|what| Fault::new(place + 1, column, what))?);
            }
            column += word.chars().count() + 1;
        }
    }
    Ok(numbers)
}

fn number<T: FromStr>(word: &str) -> Result<T, String> {
    let digits = word.strip_prefix('-').unwrap_or(word);
    if digits.is_empty() || !digits.chars().all(|c| c.is_ascii_digit()) {
        return Err(format!("{} is not a whole number", short(word)));
    }
    word.parse().map_err(|_| format!("{} is out of range for a word", short(word)))
}
