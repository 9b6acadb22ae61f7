//! A limit problem in parts, and its words.

use crate::random::Random;

/// A variable without limits.
pub const FREE: [i32; 3] = [0, 0, 0];

/// A variable with a lower limit only.
pub const fn at_least(lower: i32) -> [i32; 3] {
    [1, lower, 0]
}

/// A variable with an upper limit only.
pub const fn at_most(upper: i32) -> [i32; 3] {
    [2, 0, upper]
}

/// A variable with both limits.
pub const fn between(lower: i32, upper: i32) -> [i32; 3] {
    [3, lower, upper]
}

/// A variable that has to be above a number.
pub const fn above(lower: i32) -> [i32; 3] {
    [5, lower, 0]
}

/// A variable that has to be below a number.
pub const fn below(upper: i32) -> [i32; 3] {
    [10, 0, upper]
}

/// A variable that has to be above one number and below another.
pub const fn inside(lower: i32, upper: i32) -> [i32; 3] {
    [15, lower, upper]
}

/// The same limits, the present ones strict where that is asked for.
pub const fn marked(limits: [i32; 3], lower: bool, upper: bool) -> [i32; 3] {
    let [kind, _, _] = limits;
    let lower = if lower { 4 * (kind & 1) } else { 0 };
    let upper = if upper { 4 * (kind & 2) } else { 0 };
    [kind | lower | upper, limits[1], limits[2]]
}

/// The rows and limits of a problem.
#[derive(Debug, Clone, PartialEq, Eq)]
pub struct Draft {
    /// The number of problem variables.
    pub n: usize,
    /// One list of n coefficients for each row.
    pub rows: Vec<Vec<i32>>,
    /// Kind, lower and upper of each of the n + m variables.
    pub limits: Vec<[i32; 3]>,
}

impl Draft {
    /// The draft of rows and limits that are written out.
    pub fn new(n: usize, rows: &[&[i32]], limits: &[[i32; 3]]) -> Draft {
        Draft { n, rows: rows.iter().map(|row| row.to_vec()).collect(), limits: limits.to_vec() }
    }

    /// The words of the problem.
    pub fn words(&self) -> Vec<i32> {
        let mut words = vec![self.n as i32, self.rows.len() as i32];
        words.extend(self.rows.iter().flatten());
        words.extend(self.limits.iter().flatten());
        words
    }
}

/// An earlier row, its opposite or its double.
pub fn repeated(random: &mut Random, rows: &[Vec<i32>]) -> Vec<i32> {
    let factor = random.pick(&[1, 1, -1, 2]);
    rows[random.below(rows.len())].iter().map(|coefficient| factor * coefficient).collect()
}
