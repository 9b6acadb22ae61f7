//! Problems by names.

use crate::build_error::BuildError;
use crate::problem::{Limit, Problem};
use std::ops::{Bound, RangeBounds};

impl Problem {
    /// A problem whose variables have these names, without rows and limits.
    ///
    /// ```
    /// use scatterflock::Problem;
    ///
    /// let mut oven = Problem::named(&["zone1", "zone2"])?;
    /// oven.limit(&[("zone1", 1)], 20..=60)?;
    /// oven.limit(&[("zone2", 1)], 95..)?;
    /// let step = oven.limit(&[("zone2", 1), ("zone1", -1)], ..=50)?;
    /// assert_eq!((oven.number("zone2"), step), (Some(1), 2));
    ///
    /// let values = oven.solve().fractions().expect("it can be met");
    /// assert_eq!((values.numerators, values.over), (vec![45, 95, 50], 1));
    /// # Ok::<(), scatterflock::BuildError>(())
    /// ```
    ///
    /// # Errors
    ///
    /// There are 1 to 8 names, and no two are the same.
    pub fn named(names: &[&str]) -> Result<Problem, BuildError> {
        let mut problem = Problem::new(names.len())?;
        for (place, name) in names.iter().enumerate() {
            if names[..place].contains(name) {
                return Err(BuildError::NameTwice((*name).to_string()));
            }
        }
        problem.names = names.iter().map(|name| (*name).to_string()).collect();
        Ok(problem)
    }

    /// The names of its variables: none, where it was not built by names.
    #[must_use]
    pub fn names(&self) -> &[String] {
        &self.names
    }

    /// The number of the variable that has this name.
    #[must_use]
    pub fn number(&self, name: &str) -> Option<usize> {
        self.names.iter().position(|other| other == name)
    }

    /// Limits a sum of names, each so many times, to a range: `20..=60`, `20..`,
    /// and strictly `..60`. Hands back the number of the variable that is limited:
    /// that of the name where it stands alone and once, else that of a new row.
    ///
    /// Limits that leave out a number on the lower side have no range of their own:
    /// `(Bound::Excluded(20), Bound::Unbounded)` is "above 20".
    ///
    /// # Errors
    ///
    /// There is such a name and it comes once, the range has an end, and else as for
    /// [`row`](Problem::row) and [`at_least`](Problem::at_least). Then nothing
    /// changes.
    pub fn limit(
        &mut self,
        sum: &[(&str, i32)],
        range: impl RangeBounds<i32>,
    ) -> Result<usize, BuildError> {
        let coefficients = self.coefficients(sum)?;
        let ends = [range.start_bound(), range.end_bound()].map(|end| match end {
            Bound::Included(&number) => Some(Limit { number, is_strict: false }),
            Bound::Excluded(&number) => Some(Limit { number, is_strict: true }),
            Bound::Unbounded => None,
        });
        if ends == [None; 2] {
            return Err(BuildError::Unlimited);
        }
        let mut next = self.clone();
        let variable = match sum {
            [(name, 1)] => self.number(name).expect("it was looked up"),
            _ => next.add_row(&coefficients)?,
        };
        for (side, end) in ends.into_iter().enumerate() {
            if let Some(limit) = end {
                next = next.give(variable, side, limit)?;
            }
        }
        *self = next;
        Ok(variable)
    }

    /// A coefficient for each variable.
    fn coefficients(&self, sum: &[(&str, i32)]) -> Result<Vec<i32>, BuildError> {
        let mut coefficients = vec![0; self.variables()];
        for (place, (name, coefficient)) in sum.iter().enumerate() {
            let number = self.number(name);
            let number = number.ok_or_else(|| BuildError::NoName((*name).to_string()))?;
            if sum[..place].iter().any(|(other, _)| other == name) {
                return Err(BuildError::NameTwice((*name).to_string()));
            }
            coefficients[number] = *coefficient;
        }
        Ok(coefficients)
    }
}
