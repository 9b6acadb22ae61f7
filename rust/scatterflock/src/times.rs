//! Time rows: times that meet all of them, or rows that cannot be met.

use crate::answer::Judgement;
use crate::fractions::Fractions;
use crate::raw;
use crate::refusal::TimesRefusal;
use crate::sizes::MOST_TIMES;
use std::fmt;

/// The answer to time rows.
#[derive(Debug, Clone, PartialEq, Eq, Hash)]
#[non_exhaustive]
pub enum Schedule {
    /// The time of each vertex, from 0 on. All rows hold, whatever fraction up
    /// to 1 / n is put for the small amount.
    Times(Vec<Time>),
    /// Rows that lead round and leave less than no time.
    Cycle(Vec<usize>),
}

/// A time: minutes, and how often an arbitrarily small amount is added.
#[derive(Debug, Clone, Copy, PartialEq, Eq, PartialOrd, Ord, Hash)]
pub struct Time {
    /// Whole minutes, from 0 on.
    pub minutes: i64,
    /// Small amounts: from 0 on, and fewer than there are vertices.
    pub small: i64,
}

/// Answers the time rows of these words.
///
/// ```
/// use scatterflock::{times, Schedule, Time};
///
/// // x - y <= -3: y comes at least 3 minutes after x
/// let row = [0, 1, 0, -3];
/// // y - x < 3: and less than 3 minutes after it
/// let strict = [1, 0, 1, 3];
///
/// let schedule = times(&[&[2, 1], &row[..]].concat())?;
/// let [x, y] = [Time { minutes: 0, small: 0 }, Time { minutes: 3, small: 0 }];
/// assert_eq!(schedule, Schedule::Times(vec![x, y]));
/// assert_eq!(schedule.to_string(), "times 0, 3");
///
/// let Schedule::Cycle(rows) = times(&[&[2, 2], &row[..], &strict].concat())? else {
///     panic!("both rows cannot be met");
/// };
/// assert_eq!(rows.len(), 2);
/// # Ok::<(), scatterflock::TimesRefusal>(())
/// ```
///
/// # Errors
///
/// The refusal of words that are no time rows: the first that applies.
pub fn times(rows: &[i32]) -> Result<Schedule, TimesRefusal> {
    let mut out = [0; MOST_TIMES];
    match raw::times(rows, &mut out) {
        0 => Ok(Schedule::read(&out)),
        number => Err(TimesRefusal::try_from(number).expect("times returns 0 or a refusal")),
    }
}

/// Checks an answer's words, anybody's, against the time rows': times that meet
/// every row, or a cycle of rows that cannot be met together
/// (docs/formats/time-rows.md).
///
/// ```
/// use scatterflock::{check_times, Judgement, TimesRefusal};
///
/// // x - y <= -3: y comes at least 3 minutes after x, at 10 and 13 too
/// let rows = [2, 1, 0, 1, 0, -3];
/// assert_eq!(check_times(&rows, &[1, 2, 10, 13, 0, 0]), Ok(Judgement::Accepted));
/// assert_eq!(check_times(&rows, &[1, 2, 10, 12, 0, 0]), Ok(Judgement::Rejected));
/// assert_eq!(check_times(&rows, &[1, 2]), Err(TimesRefusal::Short));
/// ```
///
/// # Errors
///
/// The refusal of words that are no time rows, or [`TimesRefusal::Short`].
pub fn check_times(rows: &[i32], answer: &[i64]) -> Result<Judgement, TimesRefusal> {
    match raw::check_times(rows, answer) {
        8 => Ok(Judgement::Accepted),
        9 => Ok(Judgement::Rejected),
        number => {
            Err(TimesRefusal::try_from(number).expect("the checker returns 8, 9 or a refusal"))
        }
    }
}

impl Schedule {
    fn read(out: &[i64]) -> Schedule {
        let count = out[1] as usize;
        let listed = &out[2..2 + count];
        if out[0] == 1 {
            let times = listed.iter().zip(&out[2 + count..]);
            Schedule::Times(times.map(|(&minutes, &small)| Time { minutes, small }).collect())
        } else {
            Schedule::Cycle(listed.iter().map(|&row| row as usize).collect())
        }
    }

    /// The words of the answer to rows over so many vertices, as [`check_times`]
    /// takes them.
    ///
    /// ```
    /// use scatterflock::{check_times, times, Judgement};
    ///
    /// let rows = [2, 1, 0, 1, 0, -3];
    /// let evidence = times(&rows)?.evidence(2);
    /// assert_eq!(evidence, [1, 2, 0, 3, 0, 0]);
    /// assert_eq!(check_times(&rows, &evidence), Ok(Judgement::Accepted));
    /// # Ok::<(), scatterflock::TimesRefusal>(())
    /// ```
    #[must_use]
    pub fn evidence(&self, vertices: usize) -> Vec<i64> {
        let mut words = match self {
            Schedule::Times(times) => {
                let minutes = times.iter().map(|time| time.minutes);
                let all = minutes.chain(times.iter().map(|time| time.small));
                [1, times.len() as i64].into_iter().chain(all).collect()
            }
            Schedule::Cycle(rows) => {
                let listed = rows.iter().map(|&row| row as i64);
                [2, rows.len() as i64].into_iter().chain(listed).collect::<Vec<i64>>()
            }
        };
        words.resize(2 + 2 * vertices, 0);
        words
    }

    /// Times that meet all rows, as numbers: 1 / n is put for the small amount.
    /// Where no time has any, they are whole minutes over 1.
    ///
    /// ```
    /// use scatterflock::TimeRows;
    ///
    /// // x comes after y, and less than a minute after it: half a minute
    /// let rows = TimeRows::new(2)?.below(0, 1, 1)?.below(1, 0, 0)?;
    /// let fractions = rows.solve().fractions().unwrap();
    /// assert_eq!((fractions.numerators, fractions.over), (vec![1, 0], 2));
    /// # Ok::<(), scatterflock::BuildError>(())
    /// ```
    #[must_use]
    pub fn fractions(&self) -> Option<Fractions> {
        let Schedule::Times(times) = self else { return None };
        let whole = times.iter().all(|time| time.small == 0);
        let over = if whole { 1 } else { times.len() as i64 };
        let numerators = times.iter().map(|time| over * time.minutes + time.small).collect();
        Some(Fractions { numerators, over })
    }
}

impl fmt::Display for Schedule {
    fn fmt(&self, to: &mut fmt::Formatter) -> fmt::Result {
        match self {
            Schedule::Times(times) => write!(to, "times {}", joined(times)),
            Schedule::Cycle(rows) => write!(to, "no times: rows {} go round below 0", joined(rows)),
        }
    }
}

impl fmt::Display for Time {
    fn fmt(&self, to: &mut fmt::Formatter) -> fmt::Result {
        match self.small {
            0 => write!(to, "{}", self.minutes),
            small => write!(to, "{} and {small} small", self.minutes),
        }
    }
}

fn joined<T: ToString>(list: &[T]) -> String {
    list.iter().map(T::to_string).collect::<Vec<String>>().join(", ")
}
