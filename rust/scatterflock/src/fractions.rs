//! Numbers over one denominator.

/// Fractions over one denominator: the times of vertices, in minutes, or the
/// values of variables, whose numerators take 128 bits, or of a wide answer,
/// whose numbers are decimal digits.
#[derive(Debug, Clone, PartialEq, Eq, Hash)]
pub struct Fractions<Number = i64> {
    /// The numerator of each vertex's time, or of each variable's value.
    pub numerators: Vec<Number>,
    /// The denominator, above 0.
    pub over: Number,
}
