//! The ranges and sizes of docs/RULES.md.

/// The most variables of a limit problem; there is at least one.
pub const MOST_VARIABLES: usize = 8;
/// The most rows of a limit problem.
pub const MOST_ROWS: usize = 24;
/// The largest coefficient; the least is its opposite.
pub const LARGEST_COEFFICIENT: i32 = 1_000;
/// The largest limit; the least is its opposite.
pub const LARGEST_LIMIT: i32 = 30_000;
/// The largest number of a tableau, the largest denominator and multiplier.
pub const LARGEST_NUMBER: i64 = 2_147_483_647;
/// The largest small part of a numerator; the least is its opposite. So any
/// fraction up to 1 / 17,179,869,177 may be put for the small amount.
pub const LARGEST_SMALL: i64 = MOST_VARIABLES as i64 * LARGEST_NUMBER;
/// The most words of a limit problem.
pub const MOST_WORDS: usize = 2 + MOST_ROWS * MOST_VARIABLES + 3 * (MOST_VARIABLES + MOST_ROWS);
/// The most words of an answer to one.
pub const MOST_ANSWER: usize = 3 + 2 * (MOST_VARIABLES + MOST_ROWS);
/// The most words of a wide one, whose numbers have four words each.
pub const MOST_WIDE: usize = 6 + 8 * (MOST_VARIABLES + MOST_ROWS);
/// No SMT-LIB text of a limit problem has more bytes.
pub const MOST_SMTLIB: usize =
    31 + 81 * (MOST_VARIABLES + MOST_ROWS) + (21 + 16 * MOST_VARIABLES) * MOST_ROWS;
/// The most vertices of time rows; there is at least one.
pub const MOST_VERTICES: usize = 64;
/// The most time rows.
pub const MOST_TIME_ROWS: usize = 256;
/// The largest length of a time row; the least is its opposite.
pub const LARGEST_LENGTH: i32 = 30_000;
/// The most words of an answer to time rows.
pub const MOST_TIMES: usize = 2 + 2 * MOST_VERTICES;
/// The most bodies of a day's file of edition 1.
pub const FIRST_BODIES: usize = 64;
/// The most rows of a body there.
pub const FIRST_ROWS: usize = 16;
/// The most bodies of a day's file of edition 2. Each may have [`MOST_ROWS`].
pub const SECOND_BODIES: usize = 48;
/// The most bodies of a day's file, in any edition.
pub const MOST_BODIES: usize = FIRST_BODIES;
/// The most words of a day's file; each has four bytes.
pub const MOST_FILE_WORDS: usize = 16_384;
/// The most bytes of the text of a day: 1,955 for each body.
pub const MOST_DAY_TEXT: usize = MOST_BODIES * 1_955;
/// The most bytes of an auditor's sheet: 185, and 21 for each variable.
pub const MOST_SHEET: usize = 185 + 21 * (MOST_VARIABLES + MOST_ROWS);
