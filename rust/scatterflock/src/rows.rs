//! Time rows that are built step by step, and checked at each.

use crate::answer::Judgement;
use crate::build_error::BuildError;
use crate::refusal::TimesRefusal;
use crate::sizes::{LARGEST_LENGTH, MOST_TIME_ROWS, MOST_VERTICES};
use crate::times::{check_times, times, Schedule};

/// Time rows over points in time, which are numbered from 0. What is wrong
/// with them is told while they are built, so rows that are there are never
/// refused.
///
/// ```
/// use scatterflock::{Schedule, Time, TimeRows};
///
/// // y comes at least 3 minutes after x, and less than 5 after it
/// let rows = TimeRows::new(2)?.at_most(0, 1, -3)?.below(1, 0, 5)?;
/// let [x, y] = [Time { minutes: 0, small: 0 }, Time { minutes: 3, small: 0 }];
/// assert_eq!(rows.solve(), Schedule::Times(vec![x, y]));
/// # Ok::<(), scatterflock::BuildError>(())
/// ```
#[derive(Debug, Clone, PartialEq, Eq, Hash)]
pub struct TimeRows {
    vertices: usize,
    rows: Vec<[i32; 4]>,
}

impl TimeRows {
    /// So many points in time, and no rows.
    ///
    /// # Errors
    ///
    /// There are 1 to 64 points in time.
    pub fn new(vertices: usize) -> Result<TimeRows, BuildError> {
        if !(1..=MOST_VERTICES).contains(&vertices) {
            return Err(BuildError::Vertices(vertices));
        }
        Ok(TimeRows { vertices, rows: Vec::new() })
    }

    /// Adds the row `x - y <= minutes`.
    ///
    /// # Errors
    ///
    /// There are at most 256 rows, `x` and `y` are below the number of points,
    /// and `minutes` is from -30,000 to 30,000.
    pub fn at_most(self, x: usize, y: usize, minutes: i32) -> Result<TimeRows, BuildError> {
        self.row(x, y, 0, minutes)
    }

    /// Adds the row `x - y < minutes`.
    ///
    /// # Errors
    ///
    /// As for [`at_most`](TimeRows::at_most).
    pub fn below(self, x: usize, y: usize, minutes: i32) -> Result<TimeRows, BuildError> {
        self.row(x, y, 1, minutes)
    }

    fn row(mut self, x: usize, y: usize, strict: i32, c: i32) -> Result<TimeRows, BuildError> {
        if self.rows.len() == MOST_TIME_ROWS {
            return Err(BuildError::TimeRows);
        }
        if let Some(vertex) = [x, y].into_iter().find(|&vertex| vertex >= self.vertices) {
            return Err(BuildError::NoVertex(vertex));
        }
        if !(-LARGEST_LENGTH..=LARGEST_LENGTH).contains(&c) {
            return Err(BuildError::Length(c));
        }
        self.rows.push([x as i32, y as i32, strict, c]);
        Ok(self)
    }

    /// Their words, as [`times()`] takes them.
    #[must_use]
    pub fn words(&self) -> Vec<i32> {
        let mut words = vec![self.vertices as i32, self.rows.len() as i32];
        words.extend(self.rows.iter().flatten());
        words
    }

    /// Their answer.
    #[must_use]
    pub fn solve(&self) -> Schedule {
        times(&self.words()).expect("rows that were built are not refused")
    }

    /// Checks an answer's words, anybody's.
    ///
    /// # Errors
    ///
    /// [`TimesRefusal::Short`], of an answer that has too few words.
    pub fn check(&self, answer: &[i64]) -> Result<Judgement, TimesRefusal> {
        check_times(&self.words(), answer)
    }
}
