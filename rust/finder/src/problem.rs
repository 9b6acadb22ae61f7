//! The limits and rows of a problem's words.

/// A value or a limit: a plain part, and how many small amounts. Plain parts are
/// compared first.
pub type Pair = (i32, i32);

/// A limit problem.
pub struct Problem {
    /// Its own variables; rows' sums are numbered behind them.
    pub n: usize,
    /// The coefficients of each row.
    pub rows: Vec<Vec<i32>>,
    /// The lower and the upper limit of each variable. A strict one is a small
    /// amount inside of its number.
    pub limits: Vec<[Option<Pair>; 2]>,
}

impl Problem {
    /// Reads words that the archive does not refuse. Of others there may be
    /// nothing.
    pub fn read(words: &[i32]) -> Option<Problem> {
        let [n, m] = [*words.first()?, *words.get(1)?].map(|count| usize::try_from(count).ok());
        let (n, m) = (n.filter(|&n| n > 0)?, m?);
        let (coefficients, limits) = words[2..].split_at_checked(n.checked_mul(m)?)?;
        if limits.len() != 3 * (n + m) {
            return None;
        }
        Some(Problem {
            n,
            rows: coefficients.chunks_exact(n).map(<[i32]>::to_vec).collect(),
            limits: limits.chunks_exact(3).map(limits_of).collect(),
        })
    }

    /// How many variables there are, rows' sums among them.
    pub fn count(&self) -> usize {
        self.limits.len()
    }
}

/// Of a kind, a lower and an upper word.
fn limits_of(three: &[i32]) -> [Option<Pair>; 2] {
    let has = |bit: i32| three[0] & bit != 0;
    let lower = has(1).then_some((three[1], i32::from(has(4))));
    let upper = has(2).then_some((three[2], -i32::from(has(8))));
    [lower, upper]
}
