//! Values as JSON: one line, made by hand.

use crate::fraction::{Fraction, Pair};

/// An object, with a newline behind it.
pub fn object(fields: &[(&str, String)]) -> String {
    inner(fields) + "\n"
}

/// An object inside another value.
pub fn inner(fields: &[(&str, String)]) -> String {
    let fields: Vec<String> =
        fields.iter().map(|(name, value)| format!("{}:{value}", text(name))).collect();
    format!("{{{}}}", fields.join(","))
}

pub fn list(values: impl IntoIterator<Item = String>) -> String {
    format!("[{}]", values.into_iter().collect::<Vec<String>>().join(","))
}

pub fn text(text: &str) -> String {
    let mut quoted = String::from("\"");
    for c in text.chars() {
        match c {
            '"' | '\\' => quoted.extend(['\\', c]),
            c if c.is_control() => {
                let mut pair = [0; 2];
                for unit in c.encode_utf16(&mut pair) {
                    quoted += &format!("\\u{unit:04x}");
                }
            }
            c => quoted.push(c),
        }
    }
    quoted + "\""
}

/// A line's number, or null.
pub fn line(line: Option<usize>) -> String {
    line.map_or("null".to_string(), |line| line.to_string())
}

/// The lines with a comment whose end reads as a limit.
pub fn left_out(text: Option<&str>) -> String {
    list(text.map(::text::left_out).unwrap_or_default().iter().map(usize::to_string))
}

/// A fraction's parts, and a decimal to read; then how many small amounts are
/// beside it. Where there are any, the decimal is not exact.
pub fn pair(pair: Pair) -> Vec<(&'static str, String)> {
    let (decimal, is_exact) = pair.plain.decimal();
    let is_exact = is_exact && pair.small.numerator == 0;
    let mut fields = fraction(pair.plain);
    fields.extend([("decimal", text(&decimal)), ("exact", is_exact.to_string())]);
    fields.push(("small", inner(&fraction(pair.small))));
    fields
}

/// The same of a fraction with no small amounts.
pub fn number(plain: Fraction) -> Vec<(&'static str, String)> {
    pair(Pair { plain, small: Fraction::new(0, 1) })
}

/// A fraction's parts.
pub fn fraction(fraction: Fraction) -> Vec<(&'static str, String)> {
    let Fraction { numerator, denominator } = fraction;
    vec![("numerator", numerator.to_string()), ("denominator", denominator.to_string())]
}
