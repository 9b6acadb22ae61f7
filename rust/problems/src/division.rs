//! Which pivots are settled by division.
//!
//! Crate `pivot` guesses the quotients of a pivot and multiplies them back. It
//! divides them one by one, which is slow, where the numbers leave no room for
//! that: such pivots are rare, so tests look for them.

/// The largest number of a tableau.
const LARGEST_NUMBER: i128 = 2_147_483_647;

/// How a pivot is settled.
#[derive(Debug, Clone, Copy, PartialEq, Eq, PartialOrd, Ord)]
pub enum Way {
    /// By guessed quotients.
    Guessed,
    /// By division: the pivot and D are too large together.
    Together,
    /// By division: D times the divisor of the border is too large. The border
    /// is D, the leaving row and the entering column.
    Border,
}

impl Way {
    /// The way of the pivot at a row and a column of a tableau with this D.
    pub fn of(common: i128, entries: &[Vec<i128>], row: usize, column: usize) -> Way {
        let pivot = entries[row][column];
        let beside = entries.iter().map(|entries| entries[column]);
        let border = entries[row].iter().copied().chain(beside).fold(common.abs(), divisor);
        if pivot.abs() + common.abs() > LARGEST_NUMBER {
            Way::Together
        } else if common.abs() * border > LARGEST_NUMBER {
            Way::Border
        } else {
            Way::Guessed
        }
    }
}

fn divisor(one: i128, other: i128) -> i128 {
    if other == 0 {
        one.abs()
    } else {
        divisor(other, one % other)
    }
}

#[cfg(test)]
mod tests {
    use super::*;

    #[test]
    fn a_pivot_and_a_common_number_of_half_the_range_each() {
        let half = 1_073_741_823;
        let way = |common, pivot| Way::of(common, &[vec![pivot, 1]], 0, 0);
        assert_eq!(way(half, half + 1), Way::Guessed);
        assert_eq!(way(half + 1, -half - 1), Way::Together);
        assert_eq!(way(half, half + 2), Way::Together);
    }

    #[test]
    fn a_border_whose_numbers_have_a_divisor() {
        let other = 7;
        let way = |common, by: i128| Way::of(common, &[vec![by, by], vec![other, by]], 0, 1);
        assert_eq!(way(46_340, 46_340), Way::Guessed);
        assert_eq!(way(46_341, 46_341), Way::Border);
        assert_eq!(way(2 * 46_341, 46_340), Way::Guessed);
    }
}
